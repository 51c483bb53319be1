//! From bytes to trees, and the refusals 1 to 8 (document 01, "Bytes" and "Turned back for the input"). Public names run as far as
//! numbers do (document 02, 2.2), so that no bytes are refused by rule 5.

use crate::syntax::{Formula, Process, Term};

pub const SLICE_LENGTH: usize = 4096;
pub const TERM_DEPTH: usize = 8;
pub const PROCESS_DEPTH: usize = 64;
pub const FORMULA_DEPTH: usize = 48;
pub const STEP_DEPTH: usize = 16;
pub const VARIABLES: usize = 12;

/// Why a slice is not well-formed: the number of the rule, and the offset of the offending number's first byte.
#[derive(Clone, Copy, Debug, PartialEq, Eq)]
pub struct Refusal {
    pub rule: u32,
    pub place: usize,
}

/// Reads a whole slice as a process.
pub fn process(slice: &[u8]) -> Result<Process, Refusal> {
    whole(slice, |reader| reader.process(0, 0))
}

/// Reads a whole slice as a formula.
pub fn formula(slice: &[u8]) -> Result<Formula, Refusal> {
    whole(slice, |reader| reader.formula(Around::default()))
}

fn whole<'s, T>(slice: &'s [u8], read: impl Fn(&mut Reader<'s>) -> Result<T, Refusal>) -> Result<T, Refusal> {
    if slice.len() > SLICE_LENGTH {
        return Err(Refusal { rule: 1, place: SLICE_LENGTH });
    }
    let mut reader = Reader { slice, place: 0 };
    let tree = read(&mut reader)?;
    if reader.place < slice.len() {
        return Err(Refusal { rule: 8, place: reader.place });
    }
    Ok(tree)
}

/// What stands around a formula node: all formula nodes, step formulas, and output steps, which number the aliases.
/// Only the limit on step formulas bounds the aliases; that on variables is for models.
#[derive(Clone, Copy, Default)]
struct Around {
    nodes: usize,
    steps: usize,
    aliases: usize,
}

struct Reader<'s> {
    slice: &'s [u8],
    place: usize,
}

impl Reader<'_> {
    fn byte(&self, place: usize) -> Result<u8, Refusal> {
        self.slice.get(place).copied().ok_or(Refusal { rule: 2, place: self.slice.len() })
    }

    /// One number, and its place. A number cut off after its first byte is an early end, not another form.
    fn number(&mut self) -> Result<(u16, usize), Refusal> {
        let place = self.place;
        let low = self.byte(place)?;
        if low < 128 {
            self.place += 1;
            return Ok((u16::from(low), place));
        }
        let high = self.byte(place + 1)?;
        if !(1..=127).contains(&high) {
            return Err(Refusal { rule: 3, place });
        }
        self.place += 2;
        Ok((u16::from(low - 128) + 128 * u16::from(high), place))
    }

    /// A kind: one of the `listed` kinds from 0, on a path that is not `too_deep` for it.
    fn kind(&mut self, listed: u16, too_deep: impl Fn(u16) -> bool) -> Result<u16, Refusal> {
        let (kind, place) = self.number()?;
        if kind >= listed {
            return Err(Refusal { rule: 4, place });
        }
        if too_deep(kind) {
            return Err(Refusal { rule: 7, place });
        }
        Ok(kind)
    }

    fn name(&mut self) -> Result<Term, Refusal> {
        let (name, _) = self.number()?;
        Ok(Term::Name(name))
    }

    fn variable(&mut self, in_scope: usize) -> Result<Term, Refusal> {
        let (variable, place) = self.number()?;
        if usize::from(variable) >= in_scope {
            return Err(Refusal { rule: 6, place });
        }
        Ok(Term::Variable(usize::from(variable)))
    }

    /// A term below `around` term nodes, with so many variables or aliases in scope.
    fn term_below(&mut self, around: usize, in_scope: usize) -> Result<Term, Refusal> {
        let kind = self.kind(8, |_| around == TERM_DEPTH)?;
        let mut part = || self.term_below(around + 1, in_scope).map(Box::new);
        Ok(match kind {
            0 => return self.name(),
            1 => return self.variable(in_scope),
            2 => Term::Pair(part()?, part()?),
            3 => Term::Fst(part()?),
            4 => Term::Snd(part()?),
            5 => Term::Enc(part()?, part()?),
            6 => Term::Dec(part()?, part()?),
            _ => Term::Mac(part()?, part()?),
        })
    }

    fn term(&mut self, in_scope: usize) -> Result<Term, Refusal> {
        self.term_below(0, in_scope)
    }

    /// A process below `around` process nodes, with so many variables in scope. A thirteenth variable is refused at the
    /// kind that would bind it, before that kind's fields are read.
    fn process(&mut self, around: usize, in_scope: usize) -> Result<Process, Refusal> {
        let binds = |kind| matches!(kind, 1 | 3 | 5);
        let kind = self.kind(8, |kind| around == PROCESS_DEPTH || (binds(kind) && in_scope == VARIABLES))?;
        let inside = if binds(kind) { in_scope + 1 } else { in_scope };
        Ok(match kind {
            0 => Process::Nil,
            1 => Process::New(self.part(around, inside)?),
            2 => Process::Output {
                channel: self.term(in_scope)?,
                message: self.term(in_scope)?,
                then: self.part(around, inside)?,
            },
            3 => Process::Input { channel: self.term(in_scope)?, then: self.part(around, inside)? },
            4 => Process::If {
                left: self.term(in_scope)?,
                right: self.term(in_scope)?,
                then: self.part(around, inside)?,
                otherwise: self.part(around, inside)?,
            },
            5 => Process::Let { value: self.term(in_scope)?, then: self.part(around, inside)? },
            6 => Process::Par(self.part(around, inside)?, self.part(around, inside)?),
            _ => Process::Repl(self.part(around, inside)?),
        })
    }

    fn part(&mut self, around: usize, in_scope: usize) -> Result<Box<Process>, Refusal> {
        self.process(around + 1, in_scope).map(Box::new)
    }

    fn formula(&mut self, around: Around) -> Result<Formula, Refusal> {
        let is_step = |kind| matches!(kind, 3..=5);
        let too_deep = |kind| around.nodes == FORMULA_DEPTH || (is_step(kind) && around.steps == STEP_DEPTH);
        let kind = self.kind(6, too_deep)?;
        let inside = Around {
            nodes: around.nodes + 1,
            steps: around.steps + usize::from(is_step(kind)),
            aliases: around.aliases + usize::from(kind == 3),
        };
        let aliases = around.aliases;
        Ok(match kind {
            0 => Formula::Equal(self.term(aliases)?, self.term(aliases)?),
            1 => Formula::Not(self.side(inside)?),
            2 => Formula::And(self.side(inside)?, self.side(inside)?),
            3 => Formula::OutputStep { channel: self.term(aliases)?, body: self.side(inside)? },
            4 => Formula::InputStep {
                channel: self.term(aliases)?,
                message: self.term(aliases)?,
                body: self.side(inside)?,
            },
            _ => Formula::SilentStep(self.side(inside)?),
        })
    }

    fn side(&mut self, around: Around) -> Result<Box<Formula>, Refusal> {
        self.formula(around).map(Box::new)
    }
}
