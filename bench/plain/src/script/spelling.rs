//! Lines that aren't spelt as a trace has them: what they say, or what is wrong with them. They are few, or the last
//! that is read, so that this needn't be fast.

use super::text::{MOST_LINE_BYTES, PADDING, WINDOW};

#[derive(Clone, Copy, Debug, PartialEq, Eq)]
pub enum LineFault {
    TooLong,
    NotAscii,
    BadHeader,
    BadConfig,
    UnknownStep,
    UnknownLine,
    MissingWord,
    BadWord,
    ExtraWord,
    DoubleObject,
}

impl LineFault {
    pub fn text(self) -> &'static str {
        match self {
            LineFault::TooLong => "line too long",
            LineFault::NotAscii => "not ASCII",
            LineFault::BadHeader => "bad header",
            LineFault::BadConfig => "bad config",
            LineFault::UnknownStep => "unknown step",
            LineFault::UnknownLine => "unknown line",
            LineFault::MissingWord => "missing word",
            LineFault::BadWord => "bad word",
            LineFault::ExtraWord => "extra word",
            LineFault::DoubleObject => "double object",
        }
    }
}

/// The words of the line that begins here, and where the next begins. None behind the last line. A blank line and a
/// remark have no words. Unless it is compiled into its callers, the code that reads the steps of a script is slower.
#[inline(always)]
pub fn words_at(text: &[u8], start: usize) -> Result<Option<(Vec<&[u8]>, usize)>, LineFault> {
    let text = &text[..text.len() - PADDING];
    if start == text.len() {
        return Ok(None);
    }
    let (bytes, next) = match text[start..].iter().position(|byte| *byte == b'\n') {
        Some(length) => (&text[start..start + length], start + length + 1),
        None => (&text[start..], text.len()),
    };
    if bytes.len() > MOST_LINE_BYTES {
        return Err(LineFault::TooLong);
    }
    if !bytes.is_ascii() {
        return Err(LineFault::NotAscii);
    }
    let is_ended = text[next - 1] == b'\n';
    let content = bytes.strip_suffix(b"\r").filter(|_| is_ended).unwrap_or(bytes);
    let words: Vec<&[u8]> = content.split(|byte| *byte == b' ').filter(|word| !word.is_empty()).collect();
    let is_remark = words.first().is_some_and(|word| word[0] == b'#');
    Ok(Some((if is_remark { Vec::new() } else { words }, next)))
}

/// The number of the line that begins here, from 1. Behind the last line it is that of one line more.
pub fn line_number(text: &[u8], start: usize) -> usize {
    let lines = text[..start].iter().filter(|byte| **byte == b'\n').count();
    let is_in_line = start > 0 && text[start - 1] != b'\n';
    1 + lines + usize::from(is_in_line)
}

/// The words of a line as a trace has them: with one space between each two, and numbers without leading zeros. Behind
/// them stands an LF.
pub fn spelt(words: &[&[u8]]) -> [u8; WINDOW] {
    let spelt: Vec<Vec<u8>> = words.iter().map(|word| spelt_word(word)).collect();
    let spelt = spelt.join(&b' ');
    let mut line = [0; WINDOW];
    line[..spelt.len()].copy_from_slice(&spelt);
    line[spelt.len()] = b'\n';
    line
}

/// A number stands at the end of a word, if anywhere.
fn spelt_word(word: &[u8]) -> Vec<u8> {
    let letters = word.iter().take_while(|byte| !byte.is_ascii_digit()).count();
    let (letters, number) = word.split_at(letters);
    let zeros = number.iter().take_while(|byte| **byte == b'0').count();
    [letters, &number[zeros.min(number.len().saturating_sub(1))..]].concat()
}

/// What is wrong with the words of a line as a step, if anything is: the first fault by kind, and not by place.
pub fn step_fault(words: &[&[u8]]) -> Option<LineFault> {
    let (first, rest) = words.split_first()?;
    if let Some(forms) = turn_operands(first) {
        return operand_fault(forms, rest);
    }
    let Some((name, rest)) = rest.split_first() else { return Some(LineFault::UnknownStep) };
    let operands = match first[0] {
        b'm' => mutator_operands(name),
        b'w' => worker_operands(name),
        _ => None,
    };
    let Some(forms) = operands else { return Some(LineFault::UnknownStep) };
    match operand_fault(forms, rest) {
        Some(LineFault::MissingWord) => Some(LineFault::MissingWord),
        _ if number(&first[1..]).is_none_or(|number| number >> 32 != 0) => Some(LineFault::BadWord),
        fault => fault,
    }
}

/// The operands of a step without an actor: a letter for the form of each, as `has_form` has them.
fn turn_operands(name: &[u8]) -> Option<&'static str> {
    Some(match name {
        b"begin" => "cu",
        b"endmark" | b"endclear" | b"endsweep" | b"select" | b"endmove" => "",
        _ => return None,
    })
}

fn mutator_operands(name: &[u8]) -> Option<&'static str> {
    Some(match name {
        b"new" | b"job" => "sn",
        b"soft" | b"weak" | b"phantom" => "ssdn",
        b"store" => "sns",
        b"load" => "ssn",
        b"copy" | b"get" | b"refers" => "ss",
        b"drop" | b"clear" | b"unhook" | b"adopt" | b"run" => "s",
        b"put" | b"puts" | b"release" => "",
        b"poll" | b"close" => "q",
        b"polls" => "qn",
        _ => return None,
    })
}

fn worker_operands(name: &[u8]) -> Option<&'static str> {
    Some(match name {
        b"hands" => "n",
        b"scan" | b"clearnext" | b"hand" | b"sweep" | b"move" | b"put" | b"puts" | b"release" => "",
        _ => return None,
    })
}

fn operand_fault(forms: &str, words: &[&[u8]]) -> Option<LineFault> {
    if words.len() < forms.len() {
        Some(LineFault::MissingWord)
    } else if !forms.bytes().zip(words).all(|(form, word)| has_form(form, word)) {
        Some(LineFault::BadWord)
    } else if words.len() > forms.len() {
        Some(LineFault::ExtraWord)
    } else {
        None
    }
}

/// A slot `s`, a queue `q` or a dash `d`, a number `n`, a clock `c`, an urgency `u`.
fn has_form(form: u8, word: &[u8]) -> bool {
    let is_short = |word: &[u8]| number(word).is_some_and(|number| number >> 32 == 0);
    match form {
        b's' | b'q' => word[0] == form && is_short(&word[1..]),
        b'd' => word == b"-" || has_form(b'q', word),
        b'n' => is_short(word),
        b'c' => number(word).is_some(),
        _ => word == b"normal" || word == b"urgent",
    }
}

/// What is wrong with the words of a line as a root or an object of a graph, if anything is: the first fault by kind,
/// too. Whether the object is a double one is not looked at.
pub fn declaration_fault(words: &[&[u8]]) -> Option<LineFault> {
    let (name, rest) = words.split_first()?;
    let (least, more) = match *name {
        b"root" => (1, 0),
        b"plain" => (1, 8),
        b"soft" | b"weak" | b"phantom" => (2, 8),
        _ => return Some(LineFault::UnknownLine),
    };
    let is_object = |word: &[u8]| number(word).is_some_and(|number| number > 0 && number >> 32 == 0);
    let has_form = |(place, word): (usize, &&[u8])| is_object(word) || place > 0 && *word == b"-";
    if rest.len() < least {
        Some(LineFault::MissingWord)
    } else if !rest.iter().take(least + more).enumerate().all(has_form) {
        Some(LineFault::BadWord)
    } else if rest.len() > least + more {
        Some(LineFault::ExtraWord)
    } else {
        None
    }
}

/// The number below 2^64 that a word of 1 to 20 digits spells.
pub fn number(word: &[u8]) -> Option<u64> {
    if word.is_empty() || word.len() > 20 {
        return None;
    }
    word.iter().try_fold(0u64, |value, byte| {
        let digit = byte.is_ascii_digit().then(|| u64::from(byte - b'0'))?;
        value.checked_mul(10)?.checked_add(digit)
    })
}
