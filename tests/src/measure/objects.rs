//! What an archive holds, as the system's `size` and `nm` tell it: octets of code
//! and constants, and the functions that it needs of others.

use std::collections::BTreeSet;
use std::error::Error;
use std::io::ErrorKind;
use std::path::Path;
use std::process::Command;

/// Octets of sections by what they are for.
#[derive(Debug, Default, PartialEq, Eq)]
pub struct Sizes {
    pub code: u64,
    pub constants: u64,
    /// Variables, which the entries should not have.
    pub variables: u64,
    /// Tables for unwinding, which C has no use for.
    pub unwinding: u64,
}

/// What is in an archive; nothing where the system's tools are not installed.
pub fn sizes(archive: &Path) -> Result<Option<Sizes>, Box<dyn Error>> {
    Ok(told("size", &["-A"], archive)?.map(|text| sections(&text)))
}

/// The names that an archive uses and does not define; nothing as with `sizes`.
pub fn needed(archive: &Path) -> Result<Option<BTreeSet<String>>, Box<dyn Error>> {
    Ok(told("nm", &["-g"], archive)?.map(|text| undefined(&text)))
}

fn told(tool: &str, words: &[&str], archive: &Path) -> Result<Option<String>, Box<dyn Error>> {
    let ran = match Command::new(tool).args(words).arg(archive).output() {
        Err(error) if error.kind() == ErrorKind::NotFound => return Ok(None),
        ran => ran?,
    };
    match ran.status.success() {
        true => Ok(Some(String::from_utf8(ran.stdout)?)),
        false => Err(format!("{tool}: {}", String::from_utf8_lossy(&ran.stderr)).into()),
    }
}

/// Adds up lines of a section's name and its size.
fn sections(text: &str) -> Sizes {
    let mut sizes = Sizes::default();
    for line in text.lines() {
        let mut words = line.split_whitespace();
        let (Some(name), Some(Ok(size))) = (words.next(), words.next().map(str::parse::<u64>))
        else {
            continue;
        };
        match name.split('.').nth(1) {
            Some("text") => sizes.code += size,
            Some("rodata") => sizes.constants += size,
            Some("data" | "bss" | "tdata" | "tbss") => sizes.variables += size,
            Some("eh_frame") => sizes.unwinding += size,
            _ => {}
        }
    }
    sizes
}

/// The names whose lines say U, less those that another object defines.
fn undefined(text: &str) -> BTreeSet<String> {
    let (mut used, mut defined) = (BTreeSet::new(), BTreeSet::new());
    for line in text.lines() {
        match line.split_whitespace().collect::<Vec<_>>()[..] {
            ["U" | "w" | "v", name] => used.insert(String::from(name)),
            [_, _, name] => defined.insert(String::from(name)),
            _ => continue,
        };
    }
    &used - &defined
}

#[cfg(test)]
mod tests {
    use super::*;

    #[test]
    fn sections_add_up_by_their_kind() {
        let text = "one.o   (ex liboam.a):\nsection      size   addr\n.text           0      0\n\
            .text.oam_tick   100      0\n.rodata.cst16     16      0\n.rodata..L1   4      0\n\
            .eh_frame        40      0\n.comment         50      0\n.note.GNU-stack  0      0\n\
            .data.rel.ro     8      0\nTotal            218\n\ntwo.o   (ex liboam.a):\n\
            .text.oam_show   20      0\n.bss   3   0\n";
        let sizes = Sizes {
            code: 120,
            constants: 20,
            variables: 11,
            unwinding: 40,
        };
        assert_eq!(sections(text), sizes);
    }

    #[test]
    fn a_name_is_needed_unless_an_object_defines_it() {
        let text = "\none.o:\n                 U memcpy\n                 U helper\n\
            0000000000000000 T oam_tick\n                 w weak\n\n\
            two.o:\n0000000000000010 T helper\n";
        let names: Vec<String> = undefined(text).into_iter().collect();
        assert_eq!(names, ["memcpy", "weak"]);
    }
}
