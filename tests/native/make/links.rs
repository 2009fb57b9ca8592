//! LI lines and their records.
use super::*;
use crate::cube::RECORD;
use crate::link::{self, Parts};

/// Types of links, some of them the beginning of others, two of the longest.
const TYPES: [&[u8]; 9] = [b"f", b"fm", b"fmx", b"map", b"!", b"~", b"[x]", b"abcdefghijklmnop", b"abcdefghijklmno~"];

/// An LI line of these parts, well formed or not.
pub fn link_of(names: &[u8], [kind, address, text]: Parts) -> Vec<u8> {
    [b"LI", names, b" ", kind, b" ", address, b" ", text].concat()
}

/// The first columns of a link: identifier and source as in the other lines, a version of two bytes.
fn link_names(r: &mut Rng, pairs: usize) -> Vec<u8> {
    let mut l = vec![b' '; link::NAMES_END];
    name(r, &mut l, pairs);
    l[12] = r.pick(b" 0019~");
    l[13] = r.pick(b" 0129A");
    l.split_off(2)
}

/// An acceptable LI line: pairs as in the other lines, few types, so that triples meet.
pub fn link(r: &mut Rng, pairs: usize) -> Vec<u8> {
    let names = link_names(r, pairs);
    let kind = r.pick(&TYPES);
    let most = link::LONGEST - link::AROUND - kind.len();
    let longest = if r.one_in(4) { most - 1 } else { 20 };
    let n = 1 + r.below(longest);
    let address: Vec<u8> = (0..n).map(|_| r.pick(b"htp:/.-[]~!09")).collect();
    let text = link_text(r, most - n);
    link_of(&names, [kind, &address, &text])
}

/// A text of at most so many bytes: one that deletes or nearly does, the longest that there is room for, or another.
fn link_text(r: &mut Rng, most: usize) -> Vec<u8> {
    let word = r.pick(&[&b"delete"[..], b"delete:", b"delete ", b"Delete", b"delete: x", b"x"]);
    if r.one_in(3) && word.len() <= most {
        return word.to_vec();
    }
    let n = if r.one_in(5) { most } else { 1 + r.below(most) };
    let mut text: Vec<u8> = (0..n).map(|_| r.pick(b"map of [it]  (x) ")).collect();
    text[0] = r.pick(b"m[~!");
    text
}

/// The n-th of many LI lines of different triples; those of one pair stand together.
pub fn numbered_link(n: usize, version: &[u8; 2]) -> Vec<u8> {
    let names = [format!("{:08}NC", n / 5).as_bytes(), version].concat();
    link_of(&names, [TYPES[n % 5], b"http://a/b", b"a page"])
}

/// LI lines at the edges of the rules, most of them refused.
pub fn edge_links() -> Vec<Vec<u8>> {
    let names = b" 006729 NC01";
    let good = link_of(names, [b"fm", b"http://whatever/whoknows", b"This is a test"]);
    let of = |kind: &[u8], address: &[u8], text: &[u8]| link_of(names, [kind, address, text]);
    let mut lines = vec![good.clone()];
    // lengths, by the text and by the address
    for n in [1, 2, 3, 234, 235, 236, 237, 238, 300, 1200] {
        lines.push(of(b"f", b"u", &vec![b't'; n]));
        lines.push(of(b"f", &vec![b'u'; n], b"t"));
    }
    lines.extend((2..link::SHORTEST + 3).map(|n| of(b"f", b"u", b"text")[..n].to_vec()));
    lines.extend((1..20).map(|n| of(&vec![b'k'; n], b"u", b"text")));
    // blanks: none, one too many, at either end of the text
    for rest in [
        "xfm u t t",
        "  fm u t t",
        " fm  u t t",
        " fm u  t t",
        " fm u t t  ",
        " fm u ",
        " fm u",
        " fm  ",
        "      ",
        " fm_u_t_t",
        "_fm u t t",
    ] {
        lines.push([b"LI", &names[..], rest.as_bytes()].concat());
        lines.push([b"LI", &names[..], rest.as_bytes(), b" more text"].concat());
    }
    for text in ["delete", "delete:", "delete ", "delete: ", "Delete", "delet", "delete::"] {
        lines.push(of(b"fm", b"u", text.as_bytes()));
    }
    // one byte, or two, of another kind in each column
    for at in 2..good.len() {
        for b in *b"[] \x1f\x7f\xffx" {
            let mut l = good.clone();
            l[at] = b;
            lines.push(l.clone());
            l[14] = b'x';
            lines.push(l.clone());
            l[20] = b'\t';
            lines.push(l);
        }
    }
    // versions, each with a text that begins another
    for version in ["02", "01", "00", "1 ", " 9", "  ", "~~", "~!"] {
        let line = [&good[..12], version.as_bytes(), &good[14..]].concat();
        lines.extend([line.clone(), [&line[..], b" (new)"].concat(), line]);
    }
    lines
}

/// Records of links with every choice of some good and bad parts.
pub fn edge_link_records() -> Vec<Vec<u8>> {
    let long = [b'k'; 200];
    let kinds: [&[u8]; 11] =
        [b"", b"f", &long[..15], &long[..16], &long[..17], b"a b", b" f", b"f ", b"f\x1f", b"[]", &long[..40]];
    let addresses: [&[u8]; 6] = [b"", b"u", b"u v", b" u", b"u ", &long];
    let texts: [&[u8]; 8] = [b"", b"t", b" t", b"t ", b"t u", b"delete", b"\x7f", &long[..50]];
    let names: [&[u8; 12]; 5] = [b" 006729 NC01", b" 006729 NC[1", b" 006729 NC0]", b"\t006729 N]01", b"            "];
    let mut records = Vec::new();
    for n in names {
        for k in kinds {
            for a in addresses {
                records.extend(texts.iter().map(|t| link::record(n, [k, a, t])));
            }
        }
    }
    records
}

/// An LI line of random bytes, many of them blank.
pub fn random_link(r: &mut Rng) -> Vec<u8> {
    let longest = if r.one_in(3) { link::LONGEST + 10 } else { 40 };
    let n = r.below(longest);
    let mut l = b"LI".to_vec();
    l.extend((0..n).map(|_| r.pick(b"  abcdefghx~")));
    if l.len() > link::NAMES_END && !r.one_in(4) {
        l[link::NAMES_END] = b' ';
    }
    l
}

/// A link's record with parts of lengths at the edges, of good bytes or not, perhaps with a length or the bytes after it changed.
pub fn edge_link_record(r: &mut Rng) -> Vec<u8> {
    let names = link_names(r, 9);
    let sum = match r.below(3) {
        0 => r.below(30),
        1 => r.pick(&[0, 1, 2, 3, 4, 237, 238, 239, 240, 251, 252, 253, 260]),
        _ => r.below(270),
    };
    let a = r.pick(&[0, 1, 1, 2, 15, 16, 16, 17, 40, 255]).min(sum);
    let b = if r.one_in(6) { 0 } else { r.below(sum - a + 1) }.min(255);
    let c = (sum - a - b).min(255);
    let parts = [link_part(r, a), link_part(r, b), link_part(r, c)];
    let mut rec = link::record(&names, [&parts[0], &parts[1], &parts[2]]);
    if r.one_in(6) {
        let at = 1 + r.below(3);
        rec[at] = (rec[at] as i64 + r.pick(&[-1, 1, 7, 100])) as u8;
    }
    if r.one_in(8) {
        rec[r.pick(&[4, 11, 12, 13, 14, 15, 16, 17, RECORD - 1])] = r.pick(EDGES);
    }
    rec
}

/// Bytes of one part: letters, now and then a blank or a barred byte among them.
fn link_part(r: &mut Rng, n: usize) -> Vec<u8> {
    let mut part: Vec<u8> = (0..n).map(|_| r.pick(b"abc:/[]~!")).collect();
    if n > 0 && r.one_in(6) {
        part[r.below(n)] = r.pick(EDGES);
    }
    if n > 0 && r.one_in(8) {
        part[r.pick(&[0, n - 1, n / 2])] = b' ';
    }
    part
}
