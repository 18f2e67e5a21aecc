//! Names of files for people: on one line, and safe to paste.
use std::ffi::OsStr;
use std::os::unix::ffi::OsStrExt;

/// Whether a character has a picture of its own and leaves those beside it where they are: no control character, no
/// other end of a line, nothing without width or that turns the direction of writing. std's escapes know which.
fn has_picture(c: char) -> bool {
    // Behind a letter, what combines with it has one; and quotes and backslashes are escaped for other reasons.
    let text = format!("a{c}");
    matches!(c, '\'' | '"' | '\\') || text.escape_debug().eq(text.chars())
}

/// A name as it is printed in a sentence: on one line, with nothing that a terminal would obey or hide.
pub fn shown(name: impl AsRef<OsStr>) -> String {
    let mut text = String::new();
    for c in name.as_ref().to_string_lossy().chars() {
        match has_picture(c) {
            true => text.push(c),
            false => text.extend(c.escape_debug()),
        }
    }
    text
}

/// Text that can be shown as it is.
fn plain_text(bytes: &[u8]) -> Option<&str> {
    let text = std::str::from_utf8(bytes).ok()?;
    text.chars().all(has_picture).then_some(text)
}

/// A name as a word of any POSIX shell, which is this name and nothing else. One that begins with a hyphen gets a
/// folder before it, so that it is not an option. The word has all bytes of the name: `line` or `program` shows it.
pub fn word(name: impl AsRef<OsStr>) -> Vec<u8> {
    let name = name.as_ref().as_bytes();
    let plain = |byte: &u8| byte.is_ascii_alphanumeric() || b"_-./,:@%+".contains(byte);
    let folder: &[u8] = if name.starts_with(b"-") { b"./" } else { b"" };
    if !name.is_empty() && name.iter().all(plain) {
        return [folder, name].concat();
    }
    let mut word = [b"'", folder].concat();
    for &byte in name {
        match byte {
            b'\'' => word.extend(br"'\''"),
            _ => word.push(byte),
        }
    }
    word.push(b'\'');
    word
}

/// A command of such words, to be pasted: it is one line, and where a terminal would obey or hide a byte of it, printf
/// makes that byte. A shell drops ends of lines at the end of what a command prints, so the line must not end with one.
pub fn line(command: &[u8]) -> String {
    if let Some(text) = plain_text(command) {
        return text.into();
    }
    let escape = |&byte: &u8| match byte {
        b'%' => "%%".into(),
        b'\'' | b'\\' => format!("\\{byte:03o}"),
        b' '..=b'~' => char::from(byte).to_string(),
        _ => format!("\\{byte:03o}"),
    };
    let escaped: String = command.iter().map(escape).collect();
    format!("eval \"$(printf '{escaped}')\"")
}

/// A command of this program, as it was called, to be pasted: these words, as `word` makes them, behind its name.
pub fn command(words: &[&[u8]]) -> String {
    let program = word(std::env::args_os().next().unwrap_or("poilures".into()));
    line(&[&[&program[..]], words].concat().join(&b' '))
}

/// The program's name as it was called, as a word of a shell; its usual one where that cannot be shown.
pub fn program(name: Option<&OsStr>) -> String {
    let word = name.map(word);
    let text = word.as_deref().and_then(plain_text);
    text.unwrap_or("poilures").into()
}

#[cfg(test)]
mod tests {
    use super::*;
    use std::process::Command;

    const NAMES: [&[u8]; 17] = [
        b"heap.image",
        b"a folder/my image",
        b"my image;ls ..",
        b"it's",
        b"$(reboot)",
        b"`reboot`",
        b"a\nb\tc",
        b"\n",
        b"100%\n\n",
        b"\xff\xfe",
        b"\x1b[2J'\\",
        b"-rf",
        b"-\n",
        b"~root",
        b"=ls",
        "größe & 'm'".as_bytes(),
        "ab\u{202e}egami\u{2028}\u{200b}".as_bytes(),
    ];

    #[test]
    fn every_shell_gives_the_name_back() {
        let shells = ["sh", "dash", "bash", "zsh", "ksh", "mksh", "busybox"];
        let mut tried = 0;
        for shell in shells {
            for name in NAMES {
                let word = word(OsStr::from_bytes(name));
                let line = line(&[b"printf %s ", &word[..], b" ''"].concat());
                let applet = if shell == "busybox" { &["sh"][..] } else { &[] };
                let ran = Command::new(shell)
                    .args(applet)
                    .args(["-c", &line])
                    .output();
                let Ok(ran) = ran else { continue };
                let due = match name.starts_with(b"-") {
                    true => [b"./", name].concat(),
                    false => name.to_vec(),
                };
                assert_eq!(ran.stdout, due, "{shell}: {line}");
                tried += 1;
            }
        }
        assert!(tried >= NAMES.len());
    }

    #[test]
    fn a_plain_name_is_plain() {
        assert_eq!(word("runs/7/heap.image"), b"runs/7/heap.image");
        assert_eq!(word("my image"), b"'my image'");
        assert_eq!(word(""), b"''");
        assert_eq!(line("größe 'a b'".as_bytes()), "größe 'a b'");
    }

    #[test]
    fn a_program_that_cannot_be_shown_has_its_usual_name() {
        assert_eq!(program(Some(OsStr::new("./poilures"))), "./poilures");
        assert_eq!(
            program(Some(OsStr::new("my programs/it"))),
            "'my programs/it'"
        );
        assert_eq!(program(Some(OsStr::from_bytes(b"\xff"))), "poilures");
        assert_eq!(program(None), "poilures");
    }

    #[test]
    fn what_has_no_picture_is_escaped() {
        for (name, due) in [
            ("a\nb", r"a\nb"),
            ("\u{1b}[2J", r"\u{1b}[2J"),
            ("a\u{202e}b", r"a\u{202e}b"),
            ("a\u{2028}b\u{2029}c", r"a\u{2028}b\u{2029}c"),
            ("\u{200b}\u{2066}\u{feff}", r"\u{200b}\u{2066}\u{feff}"),
            ("no\u{a0}space", r"no\u{a0}space"),
            ("größe, o\u{308}, 大, 😀", "größe, o\u{308}, 大, 😀"),
            ("it's \"a\" \\", "it's \"a\" \\"),
        ] {
            assert_eq!(shown(name), due);
        }
    }

    #[test]
    fn nothing_that_a_terminal_obeys_is_shown() {
        for name in NAMES {
            let name = OsStr::from_bytes(name);
            let line = line(&word(name));
            assert!(shown(name).chars().all(has_picture), "{name:?}");
            assert!(line.chars().all(has_picture), "{line:?}");
        }
    }
}
