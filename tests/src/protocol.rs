//! The probe's protocol: a case and its bytes, the form of a refusal, and where an answer ends.

use std::io::{self, Read, Write};
use std::sync::Arc;

use crate::bytes::hex;

/// Limits of the three fields of bytes.
pub const IMAGE_LIMIT: usize = 65_536;
pub const NAME_LIMIT: usize = 1_024;
pub const CONTENT_LIMIT: usize = 65_536;

/// One call. `note` says for a reader which generator made it.
#[derive(Clone, Debug)]
pub struct Case {
    pub op: u8,
    pub image: Arc<Vec<u8>>,
    pub name: Vec<u8>,
    pub content: Vec<u8>,
    pub number: u64,
    pub note: &'static str,
}

impl Case {
    pub fn new(op: u8, image: &Arc<Vec<u8>>, note: &'static str) -> Case {
        Case { op, image: image.clone(), name: Vec::new(), content: Vec::new(), number: 0, note }
    }

    pub fn named(mut self, name: &[u8]) -> Case {
        self.name = name.to_vec();
        self
    }

    pub fn holding(mut self, content: &[u8]) -> Case {
        self.content = content.to_vec();
        self
    }

    pub fn numbered(mut self, number: u64) -> Case {
        self.number = number;
        self
    }

    pub fn write(&self, out: &mut dyn Write) -> io::Result<()> {
        out.write_all(&[self.op])?;
        for field in [&self.image[..], &self.name[..], &self.content[..]] {
            out.write_all(&(field.len() as u32).to_le_bytes())?;
            out.write_all(field)?;
        }
        out.write_all(&self.number.to_le_bytes())
    }

    pub fn encoded(&self) -> Vec<u8> {
        let mut bytes = Vec::new();
        self.write(&mut bytes).expect("a vector takes every byte");
        bytes
    }

    /// May this case be sent at all?
    pub fn fits(&self) -> bool {
        self.image.len() <= IMAGE_LIMIT && self.name.len() <= NAME_LIMIT && self.content.len() <= CONTENT_LIMIT
    }

    /// The case in a few lines, with the bytes of what is small.
    pub fn describe(&self) -> String {
        format!(
            "operation {} ({}): image of {} bytes {}, name of {} bytes {}, content of {} bytes {}, number {}",
            self.op as char,
            self.note,
            self.image.len(),
            short(&self.image, 256),
            self.name.len(),
            short(&self.name, 64),
            self.content.len(),
            short(&self.content, 64),
            self.number
        )
    }
}

fn short(bytes: &[u8], limit: usize) -> String {
    if bytes.len() <= limit {
        hex(bytes)
    } else {
        format!("{}..", hex(&bytes[..16]))
    }
}

/// The line of a refusal: number, place, and 0 for "all else is zero".
pub fn refused(number: u32, place: usize) -> String {
    format!("refused\t{number}\t{place}\t0\n")
}

/// How an answer came out, for counting: `refused N`, or its first word (a listing, a part: whether it holds anything).
pub fn outcome(answer: &str) -> String {
    let first = answer.lines().next().unwrap_or("");
    let mut words = first.split('\t');
    let word = words.next().unwrap_or("");
    match word {
        "refused" => format!("refused {}", words.next().unwrap_or("")),
        "end" => "empty listing".to_string(),
        "component" => "listing".to_string(),
        "part" if words.next() == Some("-") => "empty part".to_string(),
        "" => "no answer".to_string(),
        _ => word.to_string(),
    }
}

/// How many lines the answer to an operation has, given the lines from its first one on.
pub fn lines_of_answer(op: u8, lines: &[String]) -> usize {
    let first = lines.first().map_or("", |line| line);
    let words: Vec<&str> = first.split('\t').collect();
    let counted = |at: usize| words.get(at).and_then(|word| word.parse::<usize>().ok()).unwrap_or(0);
    match op {
        b'p' | b'g' => {
            let listed = lines.iter().take_while(|line| line.starts_with("component\t")).count();
            listed + 1
        }
        b'a' | b'r' | b'd' => 2,
        b'y' if words[0] == "payload" => counted(1).saturating_add(1),
        b'f' if words[0] == "map" => counted(3).saturating_add(1),
        _ => 1,
    }
}

/// Reads one case; none at the end of the input; an error for a case that the protocol forbids.
pub fn read_case(input: &mut dyn Read) -> Result<Option<Case>, ()> {
    let mut op = [0u8; 1];
    match input.read(&mut op) {
        Ok(0) => return Ok(None),
        Ok(_) => {}
        Err(_) => return Err(()),
    }
    let image = read_field(input, IMAGE_LIMIT)?;
    let name = read_field(input, NAME_LIMIT)?;
    let content = read_field(input, CONTENT_LIMIT)?;
    let mut number = [0u8; 8];
    input.read_exact(&mut number).map_err(|_| ())?;
    let number = u64::from_le_bytes(number);
    Ok(Some(Case { op: op[0], image: Arc::new(image), name, content, number, note: "read" }))
}

fn read_field(input: &mut dyn Read, limit: usize) -> Result<Vec<u8>, ()> {
    let mut length = [0u8; 4];
    input.read_exact(&mut length).map_err(|_| ())?;
    let length = u32::from_le_bytes(length) as usize;
    if length > limit {
        return Err(());
    }
    let mut bytes = vec![0u8; length];
    input.read_exact(&mut bytes).map_err(|_| ())?;
    Ok(bytes)
}
