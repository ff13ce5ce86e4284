//! A call in words: `switch 0 1s`, `unblock_context 0 +2ms writer`.

use ronthuyal::words::tables::{CALLS, OPERATIONS};
use ronthuyal::words::value::{number, show_time, time};
use ronthuyal::words::{Call, Names, nearest};

/// What a call may refer to: the time of the last one, and what was last asked.
#[derive(Clone, Copy, Default)]
pub struct Last {
    pub time: Option<u64>,
    pub reply: Option<[u64; 5]>,
}

/// The call that these words are; or what is wrong and what is allowed.
pub fn parse<'a>(mut words: impl Iterator<Item = &'a str>, names: &Names, last: Last) -> Result<Call, String> {
    let name = words.next();
    let name = name.ok_or("no operation; a call is OPERATION CPU TIME, with a context where it takes one")?;
    let by_name = OPERATIONS.iter().position(|row| row.name == name);
    let mut given = Given {
        name,
        usage: "CPU TIME",
        words: &mut words,
        names,
        last,
    };
    let call = match by_name.map(|at| at as u64 + 1).or_else(|| number(name)) {
        Some(operation) => given.operation(operation)?,
        None => given.call()?,
    };
    match words.next() {
        Some(more) => Err(format!("\"{more}\" behind {name}; that is more than it takes")),
        None => Ok(call),
    }
}

fn unknown(name: &str) -> String {
    let operations = OPERATIONS.iter().map(|row| row.name);
    let all: Vec<&str> = operations.chain(CALLS.iter().map(|row| row.name)).collect();
    format!("\"{name}\" is no operation; {}", nearest(name, &all))
}

struct Given<'a, 'b, I> {
    name: &'a str,
    usage: &'static str,
    words: &'b mut I,
    names: &'b Names,
    last: Last,
}

impl<'a, I: Iterator<Item = &'a str>> Given<'a, '_, I> {
    fn operation(&mut self, operation: u64) -> Result<Call, String> {
        let row = OPERATIONS.get((operation as usize).wrapping_sub(1));
        let takes = row.is_some_and(|row| row.takes_context);
        if takes {
            self.usage = "CPU TIME CONTEXT";
        }
        Ok(Call::Operation {
            operation,
            cpu: self.cpu()?,
            time: self.time()?,
            context: if takes { self.context()? } else { 0 },
        })
    }
    /// A call that has no number.
    fn call(&mut self) -> Result<Call, String> {
        self.usage = match self.name {
            "unblock_group" => "CPU TIME NAME,NAME,..",
            "total_weight" => "CPU",
            "ask" => "CPU TIME",
            "commit" => "CPU TIME, and REFUSAL RESULT IN_CHARGE CURRENT V unless it was asked before",
            _ => return Err(unknown(self.name)),
        };
        let cpu = self.cpu()?;
        if self.name == "total_weight" {
            return Ok(Call::TotalWeight { cpu });
        }
        let time = self.time()?;
        Ok(match self.name {
            "unblock_group" => Call::UnblockGroup {
                cpu,
                time,
                mask: self.group()?,
            },
            "ask" => Call::Ask { cpu, time },
            _ => Call::Commit {
                cpu,
                time,
                reply: self.reply()?,
            },
        })
    }
    fn next(&mut self) -> Result<&'a str, String> {
        self.words
            .next()
            .ok_or_else(|| format!("{} without all that it takes; {0} {}", self.name, self.usage))
    }
    fn cpu(&mut self) -> Result<u64, String> {
        let text = self.next()?;
        let cpu = number(text.strip_prefix("cpu").unwrap_or(text));
        cpu.ok_or_else(|| {
            format!(
                "\"{text}\" is no CPU; {} {}, and CPUs are numbered from 0",
                self.name, self.usage
            )
        })
    }
    fn time(&mut self) -> Result<u64, String> {
        let text = self.next()?;
        let wrong = || {
            let units =
                "a number with ns, us, ms or s is, or one of nanoseconds; with + before it, after the last call";
            format!("\"{text}\" is no time; {units}")
        };
        match text.strip_prefix('+') {
            None => time(text).ok_or_else(wrong),
            Some(later) => {
                let later = time(later).ok_or_else(wrong)?;
                let since = self
                    .last
                    .time
                    .ok_or_else(|| format!("\"{text}\" without a call before it; the first has a time without +"))?;
                since.checked_add(later).ok_or_else(wrong)
            }
        }
    }
    fn context(&mut self) -> Result<u64, String> {
        let text = self.next()?;
        // A number that is none of the contexts is refused by the call itself.
        let found = self.names.number(text);
        found.ok_or_else(|| format!("there is no context \"{text}\"; {}", self.names.known(0)))
    }
    fn group(&mut self) -> Result<u64, String> {
        let text = self.next()?;
        if let Some(mask) = number(text) {
            return Ok(mask);
        }
        text.split(',').try_fold(0, |mask, name| {
            let context = self.names.number(name).filter(|context| *context < 64);
            let found = context.ok_or_else(|| format!("there is no context \"{name}\"; {}", self.names.known(0)));
            found.map(|context| mask | 1 << context)
        })
    }
    fn reply(&mut self) -> Result<[u64; 5], String> {
        let Some(first) = self.words.next() else {
            return self
                .last
                .reply
                .ok_or_else(|| format!("nothing was asked before; {} {}", self.name, self.usage));
        };
        let mut reply = [0; 5];
        let wrong = |text: &str| format!("\"{text}\" is no word of a reply; five numbers are, as ask gave them");
        reply[0] = number(first).ok_or_else(|| wrong(first))?;
        for place in &mut reply[1..] {
            let text = self.next()?;
            *place = self
                .names
                .number(text)
                .or_else(|| number(text))
                .ok_or_else(|| wrong(text))?;
        }
        Ok(reply)
    }
}

/// What is called, without CPU and time: `unblock_context writer`.
pub fn what(call: &Call, names: &Names) -> String {
    match (*call, call.context()) {
        (_, Some(context)) => format!("{} {}", call.name(), names.of(context)),
        (Call::UnblockGroup { mask, .. }, _) => {
            let named: Vec<String> = (0..64).filter(|x| mask >> x & 1 == 1).map(|x| names.of(x)).collect();
            match named.is_empty() {
                true => format!("{} of nobody", call.name()),
                false => format!("{} {}", call.name(), named.join(",")),
            }
        }
        _ => call.name(),
    }
}

/// The call in words: `switch on CPU 0 at 1s`.
pub fn told(call: &Call, names: &Names) -> String {
    match call.time() {
        Some(time) => format!("{} on CPU {} at {}", what(call, names), call.cpu(), show_time(time)),
        None => format!("{} of CPU {}", what(call, names), call.cpu()),
    }
}
