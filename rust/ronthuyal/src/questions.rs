//! What may be asked of an image that is only read: the humblest priority, writer against rival, CPUs that are apart.

use crate::answer::Refusal;
use crate::image::Image;
use crate::typed::{ContextId, Cpu, Time};
use ronthuyal_sys as sys;

/// What the one in charge does with a round.
#[derive(Clone, Copy, Debug, PartialEq, Eq, Hash)]
pub enum Choice {
    /// Goes on: a switch after 6.75 ms.
    GoOn,
    /// Yields: a switch after 1 ms.
    Yield,
    /// Blocks until 4.5 ms after the round's beginning: a switch after 1 ms.
    Block,
}

/// How a game of writer against rival ends if both play well.
#[derive(Clone, Copy, Debug, PartialEq, Eq, Hash)]
#[non_exhaustive]
pub struct Game {
    /// The writer can force itself into charge at the end of the last round, whatever the rival picks.
    pub forced: bool,
    /// Its first winning choice, where it can and has the first one.
    pub choice: Option<Choice>,
}

fn accepted(refusal: u64) -> Result<(), Refusal> {
    Refusal::new(refusal).map_or(Ok(()), Err)
}

impl<W: AsRef<[u64]>> Image<W> {
    /// The largest priority number with which a context that is neither queued nor in charge would get the CPU, put last
    /// on its local list, by a switch at that time; none if no number from 0 to 39 does.
    ///
    /// ```
    /// use ronthuyal::{ContextId, Cpu, Image, Refusal, Time};
    ///
    /// // Nobody else wants the CPU.
    /// let image = Image::from_text("context idle\ncontext a\ncpu 0 idle_ctxt=idle").unwrap();
    /// assert_eq!(image.humblest(Cpu(0), Time::ZERO, ContextId(1))?, Some(39));
    /// assert_eq!(image.humblest(Cpu(0), Time::ZERO, ContextId(2)), Err(Refusal::Unknown));
    /// # Ok::<(), Refusal>(())
    /// ```
    pub fn humblest(&self, cpu: Cpu, time: Time, context: ContextId) -> Result<Option<u64>, Refusal> {
        let words = self.words();
        // SAFETY: address and length are those of a slice, which is only read.
        let found = unsafe { sys::ronthuyal_humblest(words.as_ptr(), words.len(), cpu.0, time.as_nanos(), context.0) };
        accepted(found.refusal)?;
        Ok((found.found == 1).then_some(found.priority))
    }
    /// Whether a writer can force itself into charge of the CPU at the end of 1 to 6 rounds, whatever a rival picks.
    ///
    /// ```
    /// use ronthuyal::{Choice, ContextId, Cpu, Image, Refusal, Time};
    ///
    /// // The writer runs, and its rival sleeps.
    /// let image = Image::from_text(
    ///     "context idle\ncontext writer\ncontext rival status=Blocked\ncpu 0 idle_ctxt=idle sched_ctxt=writer",
    /// )
    /// .unwrap();
    /// let (writer, rival) = (ContextId(1), ContextId(2));
    /// let game = image.rival(Cpu(0), Time::ZERO, writer, rival, 1)?;
    /// assert!(game.forced);
    /// assert_eq!(game.choice, Some(Choice::GoOn));
    /// assert_eq!(image.rival(Cpu(0), Time::ZERO, writer, rival, 7), Err(Refusal::NoGame));
    /// # Ok::<(), Refusal>(())
    /// ```
    pub fn rival(
        &self,
        cpu: Cpu,
        time: Time,
        writer: ContextId,
        rival: ContextId,
        rounds: u64,
    ) -> Result<Game, Refusal> {
        let words = self.words();
        let (at, length) = (words.as_ptr(), words.len());
        // SAFETY: address and length are those of a slice, which is only read.
        let game = unsafe { sys::ronthuyal_rival(at, length, cpu.0, time.as_nanos(), writer.0, rival.0, rounds) };
        accepted(game.refusal)?;
        Ok(Game {
            forced: game.forced == 1,
            choice: match game.choice {
                1 => Some(Choice::GoOn),
                2 => Some(Choice::Yield),
                3 => Some(Choice::Block),
                _ => None,
            },
        })
    }
    /// Whether two CPUs name no context together, in any roles. Then their switches give the same in either order, if
    /// neither is on a stealing turn and all four are accepted.
    ///
    /// ```
    /// use ronthuyal::{Cpu, Image};
    ///
    /// let image = Image::from_text("context i\ncontext j\ncpu 0 idle_ctxt=i\ncpu 1 idle_ctxt=j").unwrap();
    /// assert!(image.apart(Cpu(0), Cpu(1))?);
    /// assert!(!image.apart(Cpu(0), Cpu(0))?);
    /// # Ok::<(), ronthuyal::Refusal>(())
    /// ```
    pub fn apart(&self, one: Cpu, other: Cpu) -> Result<bool, Refusal> {
        let words = self.words();
        // SAFETY: address and length are those of a slice, which is only read.
        let answer = unsafe { sys::ronthuyal_apart(words.as_ptr(), words.len(), one.0, other.0) };
        accepted(answer.refusal)?;
        Ok(answer.result == 1)
    }
}
