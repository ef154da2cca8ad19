//! Good listings at random: the calls of a store, with questions between them and behind them, and sometimes lines that fill them up.

use warzhigo::lent::Owner;
use warzhigo::{Attribute, Inherent};

use crate::common::call::{Call, New};
use crate::common::converter_model::{Edition, LISTING};
use crate::common::numbers::Random;
use crate::common::plan::Plan;
use crate::common::question::ignore_rule;

/// A listing as lines, each with its line feed.
pub struct Drawn {
    pub edition: Edition,
    pub lines: Vec<String>,
    /// Are there inherent attributes?
    inherent: bool,
    random: Random,
    ops: u32,
    blocks: u32,
    regions: u32,
}

impl Drawn {
    pub fn new(seed: u64) -> Drawn {
        let mut random = Random::new(!seed);
        let edition = random.pick(&Edition::BOTH);
        let inherent = edition == Edition::Second && random.chance(10);
        let lines = vec![format!("{}\n", edition.header())];
        let mut drawn = Drawn { edition, lines, inherent, random, ops: 0, blocks: 0, regions: 0 };
        drawn.store(&Plan::new(seed));
        if drawn.random.chance(10) {
            drawn.fill();
        }
        drawn
    }

    pub fn text(&self) -> Vec<u8> {
        self.lines.concat().into_bytes()
    }

    fn line(&mut self, line: String) {
        self.lines.push(line + "\n");
    }

    /// The calls of a store, mostly without those that the rules refuse, and questions.
    fn store(&mut self, plan: &Plan) {
        let all = self.random.chance(20);
        for (call, answer) in &plan.calls {
            if all || answer.is_ok() {
                self.call(call);
            }
            if self.random.chance(5) {
                self.question();
            }
        }
        if let [left, right] = plan.twins.as_slice() {
            let ignore = ignore_rule(&mut self.random);
            self.line(format!("q,o,{},{},{},{}", left.ops[0], right.ops[0], ignore.locations as u32, ignore.bits));
        }
        (0..3).for_each(|_| self.question());
    }

    fn call(&mut self, call: &Call) {
        let line = match call {
            Call::Operation(new) => self.operation(new),
            Call::Block { region, location, argument_types } => self.block(*region, *location, argument_types),
            Call::Attribute(owner, attribute) => self.attribute(*owner, attribute),
            Call::Operand { op, index, value } => format!("s,{op},{index},{value}"),
            Call::Copy { .. } => unreachable!("no plan has a copy"),
        };
        self.line(line);
    }

    fn operation(&mut self, new: &New) -> String {
        self.ops += 1;
        self.regions += new.regions.min(8);
        let parent = new.parent.map_or("-".to_string(), |block| block.to_string());
        let lists = [&new.result_types, &new.operands, &new.successors].map(|items| list(items)).join(",");
        format!("o,{},{parent},{},{},{lists}", new.kind, new.location, new.regions)
    }

    fn block(&mut self, region: u32, location: u32, types: &[u32]) -> String {
        self.blocks += 1;
        match self.edition {
            Edition::First => format!("b,{region},{},{location},{}", self.random.word(), list(types)),
            Edition::Second => format!("b,{region},{location},{}", list(types)),
        }
    }

    fn attribute(&mut self, owner: Owner, attribute: &Attribute) -> String {
        let Attribute { key, kind, content, inherent } = attribute;
        let letter = if self.inherent && *inherent == Inherent::Yes { 'i' } else { 'a' };
        match owner {
            Owner::Op(n) => format!("{letter},o,{n},{key},{kind},{content}"),
            Owner::Block(n) => format!("{letter},b,{n},{key},{kind},{content}"),
        }
    }

    /// About two things that exist, or the first that doesn't.
    fn question(&mut self) {
        let (sort, count) = self.random.pick(&[('o', self.ops), ('b', self.blocks), ('r', self.regions)]);
        let limit = if self.random.chance(2) { count + 1 } else { count };
        let [left, right] = [(); 2].map(|()| self.random.below(limit));
        let ignore = ignore_rule(&mut self.random);
        if limit > 0 {
            self.line(format!("q,{sort},{left},{right},{},{}", ignore.locations as u32, ignore.bits));
        }
    }

    /// As many lines more as make the listing, or the converted one, of about the most bytes that one may have.
    fn fill(&mut self) {
        let label = if self.edition == Edition::Second && self.random.chance(70) { ",0".len() } else { 0 };
        let bytes = |line: &str| line.len() + if line.starts_with("b,") { label } else { 0 };
        let wanted = LISTING + 8 - self.random.below(16) as usize;
        let mut left = wanted.saturating_sub(self.lines.iter().map(|line| bytes(line)).sum());
        while left > 30 {
            let line = self.filling();
            left -= bytes(&line) + "\n".len();
            self.line(line);
        }
        // a question whose bits have up to 19 digits
        let digits = left.saturating_sub("q,o,0,0,0,\n".len()).max(1);
        self.line(format!("q,o,0,0,0,{}", "1".repeat(digits)));
    }

    /// A line of at most 18 bytes.
    fn filling(&mut self) -> String {
        match self.random.below(10) {
            0 if self.blocks < 256 => self.short_block(),
            1..4 => "q,o,0,0,0,0".to_string(),
            _ => format!("a,o,0,1,{},{}", self.random.below(64), self.random.below(1000)),
        }
    }

    fn short_block(&mut self) -> String {
        self.blocks += 1;
        match self.edition {
            Edition::First => format!("b,0,{},5,0", self.random.below(1000)),
            Edition::Second => "b,0,5,0".to_string(),
        }
    }
}

fn list(items: &[u32]) -> String {
    items.iter().fold(items.len().to_string(), |list, item| format!("{list},{item}"))
}
