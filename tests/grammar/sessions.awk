# Writes the commands of a page's ```console blocks into `folder`: NUMBER.command is what stands behind `$ `, NUMBER.said the lines below it.
/^```console$/ && !within { within = 1; next }
/^```$/ && within { within = 0; command = ""; next }
!within { next }
sub(/^\$ /, "") {
    command = folder "/" ++count
    print > (command ".command")
    printf "" > (command ".said")
    next
}
command == "" {
    print "grammar: " FILENAME ":" FNR ": no command" | "cat >&2"
    exit 1
}
{ print > (command ".said") }
