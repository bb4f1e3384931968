//! What the street program prints.

use reference::{Library, REFERENCE};

/// The refusal and value printed for each line, and behind it the line that an `X` prints.
pub fn replies(input: &[u8]) -> Vec<(u8, u32, String)> {
    let output = String::from_utf8(REFERENCE.street(input)).unwrap();
    let mut lines = output.split_inclusive('\n');
    assert!(output.ends_with('\n'));
    assert_eq!(lines.next(), Some("line,refusal,value\n"));
    let mut replies: Vec<(u8, u32, String)> = vec![];
    for line in lines {
        if line.starts_with('M') {
            let (refusal, value, printed) = replies.last_mut().unwrap();
            assert_eq!((*refusal, *value, printed.as_str()), (0, 0, ""));
            *printed = line.to_string();
        } else {
            let fields = line.trim_end_matches('\n').split(',');
            let fields: Vec<u32> = fields.map(|field| field.parse().unwrap()).collect();
            assert_eq!((fields.len(), fields[0]), (3, replies.len() as u32 + 1));
            replies.push((fields[1] as u8, fields[2], String::new()));
        }
    }
    replies
}

/// The refusal and value printed for each line.
pub fn answers(input: &[u8]) -> Vec<(u8, u32)> {
    replies(input).into_iter().map(|(refusal, value, _)| (refusal, value)).collect()
}

/// The refusal printed for each line.
pub fn refusals(input: &[u8]) -> Vec<u8> {
    answers(input).into_iter().map(|(refusal, _)| refusal).collect()
}
