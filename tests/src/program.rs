//! Document 01, "Bench image A" and "The order, part by part": what the listing program writes for any input.

use crate::master;
use crate::walk;

/// The program reads at most this many bytes.
pub const LIMIT: usize = 65_536;

pub fn output(input: &[u8]) -> String {
    if input.len() > LIMIT {
        return "refused\t1\n".to_string();
    }
    let region = match master::region(input) {
        Ok(region) => region,
        Err(number) => return format!("refused\t{number}\n"),
    };
    let list = walk::listing(input, region, walk::judge);
    let mut text = "place\tname\ttype\tlength\n".to_string();
    for component in &list {
        let name: String = component.name.iter().map(|byte| *byte as char).collect();
        let length = component.end - component.content;
        text += &format!("{}\t{}\t{:08X}\t{}\n", component.place, name, component.kind, length);
    }
    text + &format!("end\t{}\n", list.len())
}
