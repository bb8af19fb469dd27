// The header: a first line, lines of names and values, an empty line (refusal 3).

fn is_blank(byte: u8) -> bool {
    byte == b' ' || byte == b'\t'
}

fn is_printable(byte: u8) -> bool {
    (0x20..=0x7e).contains(&byte) || byte == b'\t'
}

// The line from `start` without its end, and where the next begins; None where no LF ends it.
fn line(text: &[u8], start: usize) -> Option<(&[u8], usize)> {
    let length = text[start..].iter().position(|&b| b == b'\n')?;
    let whole = &text[start..start + length];
    Some((whole.strip_suffix(b"\r").unwrap_or(whole), start + length + 1))
}

fn is_first_line(line: &[u8]) -> bool {
    let Some(rest) = line.strip_prefix(b"dogma_v1") else { return false };
    let blanks = rest.iter().take_while(|&&b| is_blank(b)).count();
    blanks > 0 && rest[blanks..].eq_ignore_ascii_case(b"utf-8")
}

// A blank may belong to the name, so one blank is taken and the rest tried as `name=value`: any other split takes away from the name.
fn is_header_line(line: &[u8]) -> bool {
    if line.len() < 2 || line[0] != b'-' || !is_blank(line[1]) {
        return false;
    }
    let rest = &line[2..];
    let Some(equals) = rest.iter().position(|&b| b == b'=') else { return false };
    equals > 0 && equals + 1 < rest.len() && rest.iter().all(|&b| is_printable(b))
}

// Where the rules begin, or the start of the first wrong line.
pub fn check(text: &[u8]) -> Result<usize, usize> {
    let (first, mut start) = line(text, 0).ok_or(0usize)?;
    if !is_first_line(first) {
        return Err(0);
    }
    loop {
        let (next, after) = line(text, start).ok_or(start)?;
        if next.is_empty() {
            return Ok(after);
        }
        if !is_header_line(next) {
            return Err(start);
        }
        start = after;
    }
}
