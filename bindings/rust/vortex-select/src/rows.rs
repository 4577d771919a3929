//! The whole program over memory.
use vortex_select_sys::program::{vortex_program, TOO_SMALL};

/// The least room of the first call for the text.
const FIRST_ROOM: usize = 4096;

/// How the program ends.
#[derive(Clone, Debug, PartialEq, Eq)]
pub struct Answer {
    /// The status of the program:
    /// - 0: the rows are printed
    /// - 1: a step is invalid
    /// - 2: the document is invalid
    /// - 3: the arguments are unknown
    /// - 6: an allocation failed, or the text would be too long
    /// - 7: the document has more than 16,777,216 bytes
    pub status: u8,
    /// The text: the rows at status 0, the fault in a line at status 1, and else nothing.
    pub text: Vec<u8>,
}

/// Runs the program with these arguments, and with the document as its standard input. Arguments
/// that hold a byte 0 are unknown.
///
/// ```
/// use vortex_select::run;
///
/// let answer = run(&["made", "7"], b"");
/// assert_eq!(answer.text, b"made 7 rows 500 nulls 45 sum 512344210835\n");
/// assert_eq!(run(&["rows", "more"], b"").status, 3);
/// ```
pub fn run(words: &[&str], document: &[u8]) -> Answer {
    if words.iter().any(|word| word.contains('\0')) {
        return Answer {
            status: 3,
            text: Vec::new(),
        };
    }
    let words: String = words.iter().flat_map(|word| [*word, "\0"]).collect();
    let (w, n, d, m) = (
        words.as_ptr(),
        words.len(),
        document.as_ptr(),
        document.len(),
    );
    let mut room = FIRST_ROOM.max(2 * document.len());
    loop {
        let mut text = Vec::with_capacity(room);
        // SAFETY: each pointer is a list's, with its length, and the text overlaps no other list.
        let answer = unsafe { vortex_program(w, n, d, m, text.as_mut_ptr(), room) };
        if answer.status == TOO_SMALL {
            room = answer.value as usize;
            continue;
        }
        if answer.status <= 1 {
            // SAFETY: the call wrote so many bytes.
            unsafe { text.set_len(answer.value as usize) };
        }
        text.shrink_to_fit();
        let status = answer.status as u8;
        return Answer { status, text };
    }
}

/// Runs `rows`: returns the rows that a document asks for.
///
/// ```
/// use vortex_select::rows;
///
/// let column = r#"{"layout":"Primitive","type":"u8","values":[5,6,7]}"#;
/// let document = format!(r#"{{"column":{column},"steps":[{{"slice":[1,3]}}]}}"#);
/// let answer = rows(document.as_bytes());
/// assert_eq!((answer.status, &answer.text[..]), (0, &b"u8\n6\n7\n"[..]));
/// ```
pub fn rows(document: &[u8]) -> Answer {
    run(&["rows"], document)
}

/// Runs `page`: returns page `number`, from 0, of the table that a document asks for, with `len`
/// rows a page.
pub fn page(number: u32, len: u32, document: &[u8]) -> Answer {
    run(&["page", &number.to_string(), &len.to_string()], document)
}

/// Runs `file`: returns the rows that a document asks for of a file that it holds.
pub fn file(document: &[u8]) -> Answer {
    run(&["file"], document)
}

/// Runs `made`: returns a line about rows that are made from a number.
pub fn made(seed: u32) -> Answer {
    run(&["made", &seed.to_string()], b"")
}
