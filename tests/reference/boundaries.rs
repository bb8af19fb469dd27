// Grammars on both sides of each limit.
use reference::arithmetic::ends;
use reference::bench;
use reference::grammar::{admit, LONGEST_TEXT};
use reference::matcher::{self, Verdict};

const HEADER: &str = "dogma_v1 utf-8\n\n";

// Rules, a last rule that still fits, and one that does not.
fn limits() -> Vec<(String, &'static str, &'static str)> {
    let times = |n: usize, part: &dyn Fn(usize) -> String, between: &str| (0..n).map(part).collect::<Vec<_>>().join(between);
    let literals = times(253, &|_| "'x'".into(), "&");
    let binders = times(63, &|i| format!("uint(8,var(v{i},~))"), "&");
    let numbers = times(512, &|i| i.to_string(), "|"); // with the signs, one less than the limit
    vec![
        (times(63, &|i| format!("r{i}={};", if i < 62 { format!("r{}", i + 1) } else { "z".into() }), ""), "z='x';", "y='x';z='x';"),
        (format!("a={literals}&z;"), "z='x';", "z='x'{1};"),
        (format!("a={literals}&z;"), "z=('x');", "z='x'|'y';"),
        (format!("a={binders}&z;"), "z=uint(8,var(n,~));", "z=uint(8,var(n,~))&uint(8,var(m,~));"),
        (format!("a=uint(32,{numbers})&z;"), "z=uint(8,1);", "z=uint(8,-1);"),
        (format!("a=uint(32,{numbers})&z;"), "z=uint(32,var(n,~));", "z=uint(8,~!~);"),
        (format!("a=uint(32,{numbers})&z;"), "z='x'{1};", "z='x'{~0};"),
        (format!("a=uint(32,{numbers})&z;"), "z='a'~'b'&'c'*;", "z=[1=1:'x';];"),
    ]
}

pub fn check() -> usize {
    let refused = |text: &str| admit(text.as_bytes()).err().map(|refusal| (refusal.number, refusal.place));
    let limits = limits();
    for (rules, fits, too_much) in &limits {
        assert_eq!(refused(&format!("{HEADER}{rules}{fits}")), None, "{rules}{fits}");
        let text = format!("{HEADER}{rules}{too_much}");
        assert_eq!(refused(&text), text.rfind("z=").map(|place| (5, place)), "{text}");
    }
    // A repetition of weight w weighs 2w + 1; the rest of 65,535 are the concatenation and the opening use.
    let doubled = |n| (0..n).fold("'x'".to_string(), |body, _| format!("({body}){{2}}"));
    let heavy = format!("{HEADER}a={}&{}&{}", doubled(14), doubled(13), doubled(13));
    assert_eq!(admit(format!("{heavy};").as_bytes()).map(|grammar| grammar.weight), Ok(65_535));
    assert_eq!(refused(&format!("{heavy}&'x';")), Some((11, HEADER.len())));
    let mut longest = format!("{HEADER}a='x';#");
    longest += &"p".repeat(LONGEST_TEXT - longest.len());
    assert_eq!((refused(&longest), refused(&format!("{longest}p"))), (None, Some((2, 0))));
    check_switches(refused);
    check_stricter(refused);
    check_widths(refused);
    limits.len() + 2
}

// A switch without a default may take nothing (Req 02): 9 and 10 of grammars that have neither with a default.
fn check_switches(refused: impl Fn(&str) -> Option<(u8, usize)>) {
    for (number, at, before, after) in [(9, "*", "[1=1:'A';", "]*;"), (10, "'x'*", "'x'*&[1=2:'y';", "]&'x';"), (10, "[", "[1=2:'x';", "]|eod;")] {
        let text = format!("{HEADER}a={before}{after}");
        assert_eq!(refused(&text), text.find(at).map(|place| (number, place)), "{text}");
        assert_eq!(refused(&format!("{HEADER}a={before}:'z';{after}")), None, "{text}");
    }
}

// Req 06: at each width, a value that the field has and one that it has not; and 64 rules of which the last is reached or not.
fn check_stricter(refused: impl Fn(&str) -> Option<(u8, usize)>) {
    for (field, width) in (1..=62).flat_map(|width| [("uint", width), ("sint", width)]) {
        let (least, greatest) = ends(field == "sint", width);
        for kept in [least, greatest] {
            assert_eq!(refused(&format!("{HEADER}a={field}({width},{kept});")), None, "{width}");
        }
        for set in [format!("{}~", greatest + 1), format!("~{}", least - 1), format!("~!{least}~{greatest}")] {
            assert_eq!(refused(&format!("{HEADER}a='x'&{field}({width},{set});")), Some((13, HEADER.len() + 6)), "{width}");
        }
    }
    let chain: String = (0..63).map(|i| format!("r{i}=r{};", i + 1)).collect();
    assert_eq!(refused(&format!("{HEADER}{chain}r63='x';")), None);
    let broken = format!("{HEADER}{}r63='x';", chain.replace("=r63;", "='x';"));
    assert_eq!(refused(&broken), broken.find("r63=").map(|place| (12, place)));
}

const LARGEST_NUMBER: i128 = 1 << 62;
const WIDTHS: [u32; 9] = [1, 2, 8, 31, 32, 33, 62, 63, 64];

// Req 10: the ends of each width's values, -1, 0 and what no calculation reaches, each in a set by itself and taken out of all; the widest binder.
fn check_widths(refused: impl Fn(&str) -> Option<(u8, usize)>) {
    for (signed, width) in WIDTHS.into_iter().flat_map(|width| [(false, width), (true, width)]) {
        let (least, greatest) = ends(signed, width);
        for value in [least, least + 1, -1, 0, 1, greatest - 1, greatest] {
            if (least..=greatest).contains(&value) {
                check_value(signed, width, value);
            }
        }
        let field = if signed { "sint" } else { "uint" };
        let expected = (width > 62).then_some((8, HEADER.len() + 7));
        assert_eq!(refused(&format!("{HEADER}a={field}({width},var(n,~));")), expected, "{width}");
    }
    assert_eq!(bench::frames(&[b'0'; 2048]), [Ok(vec![0; 1024])]);
    assert_eq!(bench::frames(&[b'x'; 2049]), [Err(21)]);
    assert_eq!(bench::frames(&[b'x'; 2048]), [Err(20)]);
}

// A frame of this value alone fits the sets that have it, and no others. A value past 2^62 is met by open ends alone.
fn check_value(signed: bool, width: u32, value: i128) {
    let field = if signed { "sint" } else { "uint" };
    let named = value.clamp(-LARGEST_NUMBER, LARGEST_NUMBER);
    let exact = named == value;
    let bits = (value.rem_euclid(1 << width) as u128) << (72 - width);
    let frame = &bits.to_be_bytes()[7..];
    let rest = 72 - width;
    let up = if value < 0 && !exact { format!("~{named}") } else { format!("{named}~") };
    for (set, fits) in [("~".into(), true), (format!("{named}"), exact), (up.clone(), true), (format!("~!({up})"), false), (format!("~!{named}"), !exact)] {
        let field = format!("{field}({width},{set})");
        let fill = if rest > 32 { format!("uint(32,~)&uint({},~)", rest - 32) } else { format!("uint({rest},~)") };
        let text = format!("{HEADER}a={field}&{fill};");
        let Ok(grammar) = admit(text.as_bytes()) else {
            assert!(!fits, "{text}");
            continue;
        };
        let verdict = matcher::run(&grammar, frame, u64::MAX).verdict;
        assert_eq!(verdict == Verdict::Match, fits, "{value} and {text}");
    }
}
