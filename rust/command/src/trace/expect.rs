//! Lines that begin with `expect`.

use super::Player;
use ronthuyal::words::value::number;
use std::io::BufRead;

impl<R: BufRead> Player<'_, R> {
    /// `LEFT = RIGHT`, met or not; or what is wrong with the line.
    pub(super) fn expect(&mut self, text: &str) -> Result<Result<(), String>, String> {
        let usage = "expect WORD = VALUE, with =, !=, <, <=, > or >=; refusal, result, interrupt, rule and changed are words too";
        let at = text
            .find(['=', '!', '<', '>'])
            .ok_or_else(|| format!("no comparison; {usage}"))?;
        let (left, rest) = text.split_at(at);
        let operators = ["!=", "<=", ">=", "=", "<", ">"];
        let operator = operators.iter().find(|operator| rest.starts_with(**operator));
        let operator = operator.ok_or_else(|| format!("no comparison; {usage}"))?;
        let (left, right) = (left.trim(), rest[operator.len()..].trim());
        let (got, wanted, shown) = self.sides(left, right)?;
        let met = match *operator {
            "=" => got == wanted,
            "!=" => got != wanted,
            "<" => got < wanted,
            "<=" => got <= wanted,
            ">" => got > wanted,
            _ => got >= wanted,
        };
        let sign = if *operator == "=" {
            String::new()
        } else {
            format!("{operator} ")
        };
        Ok(if met {
            Ok(())
        } else {
            Err(format!("{left} is {shown}; {sign}{right} is expected"))
        })
    }

    /// Both sides as numbers, and the left one as it is shown.
    fn sides(&mut self, left: &str, right: &str) -> Result<(u64, u64, String), String> {
        let answered = ["refusal", "result", "interrupt", "rule", "changed"];
        let packed = self
            .packed
            .as_ref()
            .ok_or("no image before this line; lines that describe one come first")?;
        if !answered.contains(&left) {
            let (index, wanted) = packed.assigned(left, right)?;
            let shown = crate::output::named(packed, index).1;
            return Ok((packed.words[index], wanted, shown));
        }
        let answer = self.answer.as_ref().ok_or_else(|| {
            format!("no call before this line that gave a {left}; a line that begins with call comes first")
        })?;
        let done = answer.as_ref().ok();
        let got = match left {
            "refusal" => {
                self.unexpected = None;
                answer.as_ref().map_or_else(|refusal| refusal.number(), |_| 0)
            }
            "result" => done.map_or(0, |done| done.result),
            "interrupt" => done.map_or(0, |done| u64::from(done.interrupt)),
            "rule" => done.and_then(|done| done.rule).map_or(0, |rule| rule as u64),
            _ => self
                .before
                .iter()
                .zip(&packed.words)
                .filter(|(was, is)| was != is)
                .count() as u64,
        };
        let named = ["NotDue", "Switched", "AllContextsIdle"]
            .iter()
            .position(|name| *name == right && left == "result");
        let wanted = named.map(|at| at as u64).or_else(|| number(right));
        let wanted = wanted.ok_or_else(|| format!("\"{right}\" is no {left}; a number is"))?;
        let shown = match (left, self.happened.why.as_ref()) {
            ("refusal", Some(why)) => format!("{got} ({why})"),
            _ => got.to_string(),
        };
        Ok((got, wanted, shown))
    }
}
