//! Everything that one call may change, which is what is compared.

use second::refusal::Refusal;

/// What a call answered and left behind.
#[derive(Clone, Debug, PartialEq, Eq)]
pub struct Effect<const WORDS: usize> {
    /// the report's words, or the refusal's number
    pub answer: Result<[u64; WORDS], u32>,
    /// the lent bytes after the call; empty where none are lent
    pub output: Vec<u8>,
    /// the expected number after the call; 0 where there is none
    pub expected: u64,
    /// what was touched that isn't the call's to touch: always empty for a call that does as it should
    pub strays: Vec<&'static str>,
}

impl<const WORDS: usize> Effect<WORDS> {
    /// 0 or the refusal's number, as the C interface answers.
    pub fn number(&self) -> u32 {
        self.answer.err().unwrap_or(0)
    }

    /// The answer in words.
    pub fn words(&self) -> String {
        match self.answer {
            Ok(report) => format!("answered {report:?}"),
            Err(number) => format!("refused, {number}"),
        }
    }

    /// What differs from another program's effect of the same call, in words.
    pub fn differences(&self, other: &Effect<WORDS>) -> Vec<String> {
        let mut lines = Vec::new();
        if self.answer != other.answer {
            lines.push("the answer".to_string());
        }
        if self.expected != other.expected {
            lines.push(format!("the expected number ({:#x} or {:#x})", self.expected, other.expected));
        }
        let first = self.output.iter().zip(&other.output).position(|(ours, theirs)| ours != theirs);
        if let Some(at) = first {
            lines.push(format!("the output from byte {at} ({:02x} or {:02x})", self.output[at], other.output[at]));
        }
        lines.extend(other.strays.iter().map(|stray| stray.to_string()));
        lines
    }
}

/// The second program's effects, which leave on a refusal what they were lent.
impl<const WORDS: usize> Effect<WORDS> {
    /// Of a call that only reports.
    pub fn reporting(answer: Result<[u64; WORDS], Refusal>) -> Effect<WORDS> {
        Effect::writing(answer, Vec::new())
    }

    /// Of a call that was lent an output.
    pub fn writing(answer: Result<[u64; WORDS], Refusal>, output: Vec<u8>) -> Effect<WORDS> {
        Effect { answer: answer.map_err(Refusal::number), output, expected: 0, strays: Vec::new() }
    }
}
