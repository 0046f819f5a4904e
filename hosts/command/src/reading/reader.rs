//! A script as the library reads it for a sheet: plain lines in walks, texts and odd lines in steps. It keeps where
//! each text opened, and every comment. A step may be taken back, and the reading go on from another place.

use puretakoi::{limits, refusals, Choices, End, Frame, Octal, Progress, Reading, Record, Refusal, Session, Span};

use crate::reading::php::{is_suspicious, next_line, span_at};
use crate::reading::remark::Remark;

/// The numbers of a list with room for the tokens of a line; 16 are enough for any step.
const LIST_NUMBERS: usize = 1_024;

/// A byte that opens, closes and begins nothing in any text.
const PLAIN: u8 = b'-';

/// A script that is being read by the sheet reading.
pub struct Reader {
    script: Vec<u8>,
    choices: Choices,
    session: Session,
    progress: Progress,
    openings: Openings,
    openings_before: Openings,
    remarks: Vec<Remark>,
    seen: u32,
    odd_line: usize,
    list: Vec<u32>,
    pool: Vec<u8>,
}

/// A step that was done.
#[derive(Debug)]
pub struct Step {
    /// The session before it.
    pub before: Session,
    /// The session behind it.
    pub after: Session,
    /// Where the text opened that it read, if it read one.
    pub opening: Span,
    /// Its tokens.
    pub records: Vec<Record>,
    /// Their values.
    pub pool: Vec<u8>,
}

impl Reader {
    /// A reader before its script, by these octals.
    pub fn new(script: &[u8], octals: Octal) -> Reader {
        let openings = Openings { spans: vec![Span::START] };
        let choices = Choices { nowdocs: Reading::Sheet, octals };
        Reader {
            script: script.to_vec(),
            choices,
            session: Session::fresh(choices),
            progress: Progress::Done,
            openings_before: openings.clone(),
            openings,
            remarks: Vec::new(),
            seen: 0,
            odd_line: 0,
            list: vec![0; LIST_NUMBERS],
            pool: vec![0; limits::MOST_BYTES],
        }
    }

    /// Where the script is being read.
    pub fn session(&self) -> &Session {
        &self.session
    }

    /// What is chosen for each reading of the script.
    pub fn choices(&self) -> Choices {
        self.choices
    }

    /// Where the text on top of the mode stack opened, if there is one.
    pub fn opening(&self) -> Span {
        self.openings.top()
    }

    /// The innermost string, command or text block that is open, and where it opened.
    pub fn open_text(&self) -> Option<(Frame, Span)> {
        let frames = (0..limits::MOST_FRAMES).map_while(|at| self.session.frame(at));
        let opened = frames.zip(self.openings.spans.iter().copied());
        opened.filter(|(frame, _span)| !matches!(frame, Frame::Initial | Frame::Scripting)).last()
    }

    /// The comments that were passed so far, in the script's order.
    pub fn remarks(&mut self) -> &mut Vec<Remark> {
        &mut self.remarks
    }

    /// Whether a token of a kind was read.
    pub fn has_read(&self, kind: u32) -> bool {
        self.seen & (1 << kind) != 0
    }

    /// The next step, what stands before it in a plain line being passed; none at the script's end. No text block
    /// is passed.
    pub fn next_step(&mut self) -> Result<Option<Step>, Refusal> {
        if self.progress == Progress::Finished {
            return Ok(None);
        }
        self.pass_line();
        let (before, opening) = (self.session.clone(), self.opening());
        self.openings_before = self.openings.clone();
        let (lent, end) = lent(&self.script);
        self.session.empty_tables();
        self.progress = match self.session.step(lent, end, &mut self.list, &mut self.pool) {
            // The script is too large: the bytes that are lent wait for the others, and the library refuses all.
            Err(Refusal { number: refusals::WAIT, .. }) => {
                self.session.step(&self.script, End::Announced, &mut self.list, &mut self.pool)?
            }
            answer => answer?,
        };
        self.openings.follow(&before, &self.session);
        self.keep();
        let records = self.session.records(&self.list).collect();
        let pool = self.pool[..self.session.bytes() as usize].to_vec();
        Ok(Some(Step { before, after: self.session.clone(), opening, records, pool }))
    }

    /// The script as it is lent: with a plain byte in each masked place.
    pub fn lent(&self) -> &[u8] {
        &self.script
    }

    /// Reads a plain byte at a place from here on, where another one is; whether one was.
    pub fn mask(&mut self, at: usize) -> bool {
        match self.script.get_mut(at) {
            Some(byte) if *byte != PLAIN => {
                *byte = PLAIN;
                true
            }
            _ => false,
        }
    }

    /// Takes a step back.
    pub fn take_back(&mut self, step: &Step) {
        self.session = step.before.clone();
        self.openings = self.openings_before.clone();
        self.progress = Progress::Done;
        self.odd_line = self.odd_line.min(step.before.position() as usize);
        let position = step.before.position();
        self.remarks.retain(|remark| remark.span.position < position);
    }

    /// Goes on from a place, with a frame in the top one's place.
    pub fn go_on(&mut self, at: usize, top: Frame) {
        let before = self.session.clone();
        self.session.set_span(span_at(&self.script, at));
        self.session.set_top(top);
        self.odd_line = at;
        self.openings.follow(&before, &self.session);
    }

    /// Leaves the top frame, unless it is the last.
    pub fn leave(&mut self) {
        let before = self.session.clone();
        self.session.pop(&self.script).ok();
        self.openings.follow(&before, &self.session);
    }

    /// Begins again at a place of the script, with nothing open. Comments from there on are forgotten.
    pub fn begin_again(&mut self, at: usize) {
        self.session = Session::fresh(self.choices);
        self.session.set_span(span_at(&self.script, at));
        self.session.set_top(Frame::Scripting);
        self.openings = Openings { spans: vec![self.session.span()] };
        self.odd_line = at;
        self.remarks.retain(|remark| (remark.span.position as usize) < at);
    }

    /// Reads no further.
    pub fn stop(&mut self) {
        self.progress = Progress::Finished;
    }

    /// The line in which the library closes the text block on top of the mode stack, if it does.
    pub fn closing_line(&self) -> Option<u32> {
        let (mut session, depth) = (self.session.clone(), self.session.depth());
        let (mut list, mut pool) = ([0; 16], vec![0; limits::MOST_BYTES]);
        loop {
            session.empty_tables();
            let progress = session.step(&self.script, End::Announced, &mut list, &mut pool).ok()?;
            if session.depth() == depth && session.top() == Some(Frame::Scripting) {
                return Some(session.line());
            }
            if progress == Progress::Finished {
                return None;
            }
        }
    }

    /// Walks to the end of the cursor's line where no text is open and the line is plain. A text block is not
    /// passed, for its opening is not plain. What the walk is refused for comes again in the step behind it; so
    /// does a comment that goes on in the next line.
    fn pass_line(&mut self) {
        let at = self.session.position() as usize;
        if at < self.odd_line || is_text_open(&self.session) {
            return;
        }
        let line_end = next_line(lent(&self.script).0, at);
        if is_suspicious(self.script.get(at..line_end).unwrap_or_default()) {
            self.odd_line = line_end;
            return;
        }
        self.session.empty_tables();
        let before = self.session.clone();
        let line = &self.script[..line_end];
        self.session.walk(line, End::More, u32::MAX, &mut self.list, &mut self.pool).ok();
        self.keep();
        if is_text_open(&self.session) {
            self.retrace(before, line_end);
        } else {
            self.openings.spans.resize(self.session.depth() as usize, before.span());
        }
    }

    /// Keeps the comments among the tokens that were read last, and which kinds they were of.
    fn keep(&mut self) {
        let records: Vec<Record> = self.session.records(&self.list).collect();
        self.remarks.extend(records.iter().filter_map(|record| Remark::new(record, &self.pool, &self.script)));
        self.seen |= records.iter().fold(0, |seen, record| seen | 1 << record.kind);
    }

    /// Takes the steps of a walk again, one by one, to learn where each text opened that is open behind it.
    fn retrace(&mut self, mut session: Session, line_end: usize) {
        let mut answer = Ok(Progress::Done);
        while answer == Ok(Progress::Done) {
            let before = session.clone();
            answer = session.step(&self.script[..line_end], End::More, &mut self.list, &mut self.pool);
            self.openings.follow(&before, &session);
        }
    }
}

/// The bytes that are lent to the library: the script, or as much of it as is taken.
fn lent(script: &[u8]) -> (&[u8], End) {
    match script.get(..limits::MOST_BYTES) {
        Some(front) if front.len() < script.len() => (front, End::More),
        _ => (script, End::Announced),
    }
}

/// Whether a string, a command or a text block is open.
fn is_text_open(session: &Session) -> bool {
    let mut frames = (0..limits::MOST_FRAMES).map_while(|at| session.frame(at));
    frames.any(|frame| !matches!(frame, Frame::Initial | Frame::Scripting))
}

/// Where each frame of the mode stack opened; of frames without a text, where no one asks, any place.
#[derive(Clone)]
struct Openings {
    spans: Vec<Span>,
}

impl Openings {
    /// Where the top frame opened.
    fn top(&self) -> Span {
        self.spans.last().copied().unwrap_or(Span::START)
    }

    /// A step was done: a frame that is new or another opened where the step began, a bracket at the cursor.
    fn follow(&mut self, before: &Session, after: &Session) {
        if before.depth() == after.depth() && before.top() != after.top() {
            self.spans.pop();
        }
        let opening = if after.top() == Some(Frame::VarOffset) { after.span() } else { before.span() };
        self.spans.resize(after.depth() as usize, opening);
    }
}
