//! Statements to frames. Nothing here decides a rewrite.
use crate::frames::Frame;
use crate::inert::Inert;
use crate::levels::{Level, Options};
use crate::names::Names;
use crate::program::{is_local, Argument, Expr, Program, Statement, What};
use crate::shape::{role, Role, Shape};
use crate::tables::*;
use crate::values::Values;
use crate::Stopped;
use std::collections::HashSet;

/// What a program was written as.
pub struct Written {
    pub frames: Vec<Frame>,
    pub names: Names,
    /// Statements of which the listing has no more than the size.
    pub inert: Vec<bool>,
    /// Pads that are none of C-11, and where they go now: orgs in the listing.
    pub pins: Vec<(usize, usize)>,
}

pub struct Writer<'p> {
    pub(crate) program: &'p Program,
    pub(crate) values: &'p Values<'p>,
    pub(crate) options: Options,
    pub(crate) written: Written,
    shape: &'p Shape,
    /// Labels that have a frame, at the level Bare.
    needed: Vec<bool>,
    /// Bytes of inert statements that have no frame yet.
    run: usize,
    /// Bytes of constant data that have no frame yet.
    bytes: Vec<u8>,
    /// The first statement of either.
    run_at: usize,
    /// The last frame's role, and whether a statement without a frame stood behind it: it would have stopped a fold.
    last: Role,
    blocked: bool,
    /// A label of address 0 before everything, if constants are to stay as written.
    zero: Option<u16>,
    /// Names that a variable may name: global labels and variables above.
    seen: HashSet<&'p str>,
    late: Vec<usize>,
}

/// The listing of a program at a level.
pub fn write(program: &Program, values: &Values, shape: &Shape, options: Options) -> Result<Written, Stopped> {
    let inert = Inert { values, shape, level: options.level };
    let count = program.statements.len();
    let flags = program.statements.iter().enumerate().map(|(place, s)| s.size > 0 && inert.is(place, s)).collect();
    let written = Written { frames: vec![], names: Names::default(), inert: flags, pins: vec![] };
    let needed = if options.level == Level::Bare { inert.needed(program) } else { vec![true; count] };
    let mut writer = Writer {
        program,
        values,
        options,
        written,
        shape,
        needed,
        run: 0,
        bytes: vec![],
        run_at: 0,
        last: Role::None,
        blocked: false,
        zero: None,
        seen: HashSet::new(),
        late: vec![],
    };
    writer.zero();
    for (place, statement) in program.statements.iter().enumerate() {
        writer.statement(place, statement)?;
    }
    writer.flush();
    for place in std::mem::take(&mut writer.late) {
        if let What::Variable(name, expr) = &program.statements[place].what {
            writer.variable(place, name, expr)?;
        }
    }
    Ok(writer.written)
}

impl<'p> Writer<'p> {
    fn zero(&mut self) {
        if self.options.constants_stay {
            let name = self.written.names.fresh(false);
            self.zero = Some(name);
            self.push(0, [&[LABEL], &name.to_be_bytes()[..]].concat(), 0);
        }
    }

    fn statement(&mut self, place: usize, statement: &'p Statement) -> Result<(), Stopped> {
        if self.written.inert[place] {
            self.rest(place, statement.size as usize);
            return Ok(());
        }
        match &statement.what {
            What::Comment => {}
            What::Label(name) => self.label(place, name),
            What::Variable(name, expr) => self.variable_here(place, name, expr)?,
            What::Instruction(form, arguments) => self.instruction(place, *form, arguments)?,
            // Data without bytes still stands between its neighbours.
            What::Bytes(_) | What::Words(_) if statement.size == 0 => self.put(place, vec![PAD, 0, 0, 1], 0),
            What::Bytes(items) => self.data(place, BYTES, items)?,
            What::Words(items) => self.data(place, WORDS, items)?,
            What::Org(location) => self.org(place, *location)?,
            What::Pad(add, multiple) => self.pad(place, *add, *multiple)?,
        }
        Ok(())
    }

    /// The global label that a statement stands under.
    pub(crate) fn context(&self, place: usize) -> &'p str {
        &self.shape.contexts[place]
    }

    pub(crate) fn stop(&self, place: usize, text: String) -> Stopped {
        Stopped { statement: Some(place), text }
    }

    pub(crate) fn push(&mut self, statement: usize, bytes: Vec<u8>, target: usize) {
        let line = self.program.statements.get(statement).map_or(0, |s| s.line);
        self.written.frames.push(Frame { bytes, statement, line, target });
    }

    pub(crate) fn put(&mut self, statement: usize, bytes: Vec<u8>, target: usize) {
        self.flush();
        let role = role(&self.program.statements[statement].what);
        if self.blocked && self.last != Role::None && matches!(role, Role::Jump | Role::Local) {
            let name = self.written.names.fresh(false).to_be_bytes();
            self.push(statement, vec![VARIABLE, name[0], name[1], NUMBER, 0, 0, 0, 0], 0);
        }
        self.blocked = false;
        self.last = role;
        self.push(statement, bytes, target);
    }

    /// Zeros of a fixed number, or whatever has this size.
    pub(crate) fn room(&mut self, statement: usize, mut size: usize) {
        while size > 0 {
            let part = size.min(255);
            self.push(statement, vec![PAD, part as u8, 0, 1], 0);
            size -= part;
        }
    }

    fn waiting(&self) -> bool {
        self.run > 0 || !self.bytes.is_empty()
    }

    pub(crate) fn flush(&mut self) {
        if self.waiting() {
            self.last = Role::None;
            self.blocked = false;
            let (size, bytes) = (std::mem::take(&mut self.run), std::mem::take(&mut self.bytes));
            self.room(self.run_at, size);
            self.pack(self.run_at, &bytes);
        }
    }

    /// An inert statement joins the run.
    fn rest(&mut self, statement: usize, size: usize) {
        if !self.bytes.is_empty() {
            self.flush();
        }
        if self.run == 0 {
            self.run_at = statement;
        }
        self.run += size;
    }

    /// Constant bytes join those that wait to be packed.
    pub(crate) fn wait(&mut self, statement: usize, bytes: &[u8]) {
        if self.run > 0 {
            self.flush();
        }
        if self.bytes.is_empty() {
            self.run_at = statement;
        }
        self.bytes.extend(bytes);
    }

    /// A statement has no frame here.
    fn leave_out(&mut self) {
        self.blocked |= !self.waiting();
    }

    fn label(&mut self, place: usize, name: &'p str) {
        if !is_local(name) {
            self.seen.insert(name);
        }
        if !self.needed[place] && !self.shape.pieces[place] {
            self.leave_out();
            return;
        }
        let [high, low] = self.named(place, name).to_be_bytes();
        self.put(place, vec![LABEL, high, low], 0);
    }

    /// The number of a name. Where labels without use go, contexts run together, and a local name has a number for each of its own.
    pub(crate) fn named(&mut self, place: usize, name: &str) -> u16 {
        if self.options.level == Level::Bare && is_local(name) {
            return self.written.names.number(&format!("{name} {}", self.shape.contexts[place]));
        }
        self.written.names.number(name)
    }

    fn variable_here(&mut self, place: usize, name: &'p str, expr: &Expr) -> Result<(), Stopped> {
        if expr.any_name(&mut |n| !self.seen.contains(n)) {
            // It names a label below it, which waterbear allows and document 01 does not: it goes to the end of the listing.
            self.leave_out();
            self.late.push(place);
            return Ok(());
        }
        self.seen.insert(name);
        if self.options.level >= Level::Skeleton && !self.values.holds(expr) {
            self.leave_out();
            return Ok(());
        }
        self.variable(place, name, expr)
    }

    fn variable(&mut self, place: usize, name: &str, expr: &Expr) -> Result<(), Stopped> {
        let [high, low] = self.written.names.number(name).to_be_bytes();
        let value = self.expression(place, expr)?;
        self.put(place, [&[VARIABLE, high, low], &value[..]].concat(), 0);
        Ok(())
    }

    fn instruction(&mut self, place: usize, form: u8, arguments: &[Argument]) -> Result<(), Stopped> {
        let mut bytes = vec![INSTRUCTION, form];
        let mut target = 0;
        for (n, argument) in arguments.iter().enumerate() {
            let last = is_transfer(form) && n + 1 == arguments.len();
            if last {
                target = bytes.len();
            }
            match argument {
                Argument::Register(register) => bytes.push(*register),
                Argument::Value(expr) if last => bytes.extend(self.target(place, expr)?),
                Argument::Value(expr) => bytes.extend(self.expression(place, expr)?),
            }
        }
        self.put(place, bytes, target);
        Ok(())
    }

    /// A target; one that is to stay as written though it holds no label gets a label that cancels out.
    fn target(&mut self, place: usize, expr: &Expr) -> Result<Vec<u8>, Stopped> {
        match self.zero {
            Some(zero) if expr.any_name(&mut |_| true) && !self.values.holds(expr) => {
                let [high, low] = zero.to_be_bytes();
                let mut bytes = vec![PLUS, MINUS, NAME, high, low, NAME, high, low];
                self.shorter(place, &mut bytes, expr);
                Ok(bytes)
            }
            _ => self.expression(place, expr),
        }
    }

    fn org(&mut self, place: usize, location: usize) -> Result<(), Stopped> {
        let Ok(location) = u16::try_from(location) else {
            return Err(self.stop(place, "a position of 65,536 or more is no org of a listing".to_owned()));
        };
        let [high, low] = location.to_be_bytes();
        self.put(place, vec![ORG, high, low], 0);
        Ok(())
    }

    fn pad(&mut self, place: usize, add: i32, multiple: i32) -> Result<(), Stopped> {
        if let (Ok(add), 1..=256) = (u8::try_from(add), multiple) {
            let [high, low] = (multiple as u16).to_be_bytes();
            self.put(place, vec![PAD, add, high, low], 0);
            return Ok(());
        }
        // No pad of C-11. It is handed over as an org to where it goes now.
        let Statement { at, size, .. } = self.program.statements[place];
        let mine = at..at.saturating_add(size);
        if self.program.statements.iter().filter_map(|s| self.values.constant(s.target()?)).any(|aim| mine.contains(&aim)) {
            // A number points into it: its bytes are owned.
            self.flush();
            self.room(place, size as usize);
        }
        self.org(place, mine.end as usize)?;
        self.written.pins.push((place, mine.end as usize));
        Ok(())
    }
}
