//! Types, inline or from the type table, and the allowance of 2,048.

use super::mistakes::{planted, Mistake};
use super::names::Names;
use super::wire::{Message, Refused};
use crate::limits::TYPES;

pub struct Type {
    pub nullable: bool,
    pub name: Option<u32>,
    pub arguments: Vec<Type>,
    pub projection: Projection,
    /// Only a planted mistake asks for it: whether the first argument was dropped.
    pub first_dropped: bool,
}

/// How an argument stands in its type, by the number that the sheet has for it. What is no argument is invariant.
#[derive(Clone, Copy, PartialEq, Eq)]
pub enum Projection {
    In = 0,
    Out = 1,
    Invariant = 2,
    Star = 3,
}

impl Projection {
    /// By field 1 of an argument: its first occurrence, all 64 bits of it.
    fn of(argument: &Message<'_>) -> Self {
        let omitted = if planted(Mistake::OmittedIn) { 0 } else { 2 };
        let number = argument.number(1).unwrap_or(omitted);
        match if planted(Mistake::ProjectionCut) { u64::from(number as u32) } else { number } {
            0 => Self::In,
            1 => Self::Out,
            3 => Self::Star,
            4.. if planted(Mistake::OthersAreStars) => Self::Star,
            _ => Self::Invariant,
        }
    }
}

/// The type table, and how many types were entered.
pub struct Types<'a> {
    names: &'a Names<'a>,
    entries: Vec<Message<'a>>,
    first_nullable: Option<u32>,
    pub entered: u64,
    /// Whether one of them was a star.
    pub met_star: bool,
}

const DEPTH: u64 = 64;

impl<'a> Types<'a> {
    pub fn of(body: &Message<'a>, names: &'a Names<'a>) -> Result<Self, Refused> {
        let mut types = Self { names, entries: Vec::new(), first_nullable: None, entered: 0, met_star: false };
        if let Some(table) = body.message(30)? {
            types.entries = table.messages(1)?;
            types.first_nullable = table.index(2);
        }
        Ok(types)
    }

    /// A declaration's type: inline in one field or by index in another.
    pub fn declared(&mut self, owner: &Message<'a>, inline: u32, index: u32) -> Result<Option<Type>, Refused> {
        self.either(owner, inline, index, 0)
    }

    fn either(&mut self, owner: &Message<'a>, inline: u32, index: u32, depth: u64) -> Result<Option<Type>, Refused> {
        if planted(Mistake::TypesBeforeCut) && owner.bytes(inline).is_some() && self.entered == TYPES {
            return Err(Refused::Types);
        }
        if let Some(message) = owner.message(inline)? {
            if planted(Mistake::InlineDepth) && depth >= DEPTH {
                return Ok(None);
            }
            return self.enter(&message, depth).map(Some);
        }
        match owner.index(index) {
            Some(index) => self.look_up(index, depth),
            None => Ok(None),
        }
    }

    fn look_up(&mut self, index: u32, depth: u64) -> Result<Option<Type>, Refused> {
        let limit = if planted(Mistake::DepthOneMore) { DEPTH + 1 } else { DEPTH };
        if depth >= limit || index as usize >= self.entries.len() {
            return Ok(None);
        }
        let message = self.entries[index as usize].clone();
        let mut found = self.enter(&message, depth + 1)?;
        let after = planted(Mistake::NullableAfter);
        found.nullable |= self.first_nullable.is_some_and(|first| index >= first && !(after && index == first));
        Ok(Some(found))
    }

    /// Counts a type, a star among them; the 2,049th is refused.
    fn count(&mut self) -> Result<(), Refused> {
        let limit = if planted(Mistake::TypesTooMany) { TYPES + 1 } else { TYPES };
        if self.entered == limit {
            return Err(Refused::Types);
        }
        self.entered += 1;
        Ok(())
    }

    /// Enters a type whose own fields are cut.
    fn enter(&mut self, message: &Message<'a>, depth: u64) -> Result<Type, Refused> {
        self.count()?;
        let mut arguments = Vec::new();
        let mut first_dropped = false;
        for (place, argument) in message.messages(2)?.iter().enumerate() {
            match self.argument(argument, depth + 1)? {
                Some(argument) => arguments.push(argument),
                None => first_dropped |= place == 0,
            }
        }
        let name = message.index(6);
        name.map(|index| self.names.look_up(index));
        Ok(Type {
            nullable: message.number(3).unwrap_or(0) != 0,
            name,
            arguments,
            projection: Projection::Invariant,
            first_dropped,
        })
    }

    /// An argument whose own fields are cut, if it is kept: a star, or one with a type. The projection is the argument's, inline or by index.
    fn argument(&mut self, argument: &Message<'a>, depth: u64) -> Result<Option<Type>, Refused> {
        let projection = Projection::of(argument);
        if projection == Projection::Star {
            return self.star(argument, depth);
        }
        let found = self.either(argument, 2, 3, depth)?;
        let lost = planted(Mistake::LookedUpInvariant) && argument.bytes(2).is_none();
        Ok(found.map(|ty| if lost { ty } else { Type { projection, ..ty } }))
    }

    /// A star has neither name nor arguments. Whatever type it holds is not read, and no depth is too deep for it.
    fn star(&mut self, argument: &Message<'a>, depth: u64) -> Result<Option<Type>, Refused> {
        self.met_star = true;
        let blank = Type {
            nullable: planted(Mistake::StarNullable),
            name: None,
            arguments: Vec::new(),
            projection: Projection::Star,
            first_dropped: false,
        };
        if planted(Mistake::StarDropped) || planted(Mistake::StarDepth) && depth >= DEPTH {
            return Ok(None);
        }
        if planted(Mistake::StarTypeCut) {
            argument.message(2)?;
        }
        if planted(Mistake::UsedStar) {
            let inside = argument.message(2).ok().flatten();
            inside.and_then(|ty| ty.index(6)).map(|index| self.names.look_up(index));
        }
        let entered = self.entered;
        let inside = if planted(Mistake::StarTypeRead) { self.either(argument, 2, 3, depth)? } else { None };
        let uncounted = planted(Mistake::StarUncounted) || planted(Mistake::StarTooMany) && entered == TYPES;
        if inside.is_none() && !uncounted {
            self.count()?;
        }
        Ok(Some(inside.map_or(blank, |ty| Type { projection: Projection::Star, ..ty })))
    }
}
