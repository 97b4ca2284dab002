//! What the compared lists reached, and what they had to reach.

use reference::codes::answer_byte;
use reference::kinds::*;
use reference::limits::{HISTORY_BYTES, LONGEST_LIST, MARK, RAN, RECORD_BYTES, TRAILER_BYTES};
use reference::{EventList, State};
use trial::{marks, Counts};

use crate::before::Before;
use crate::cases::Case;

/// The answers that each kind can give in a run. Leave never answers 5: where
/// there are two nodes, a list is too short for the last term.
const ANSWERS: [(u8, &str, &[usize]); 14] = [
    (0, "unknown", &[2]),
    (JOIN, "join", &[0, 3, 4, 5, 7]),
    (LEAVE, "leave", &[0, 3, 4, 7]),
    (LEARN, "learn", &[0, 3, 4]),
    (SEND_UPDATE, "send update", &[0, 3, 4, 7]),
    (RECEIVE_UPDATE, "receive update", &[0, 3, 4]),
    (SEND_WRITE, "send write", &[0, 3, 4, 7]),
    (RECEIVE_WRITE, "receive write", &[0, 3, 4]),
    (CONNECT, "connect", &[0, 3, 4]),
    (CLOSE, "close", &[0, 3, 4, 7]),
    (HANDLE_UPDATE, "handle update", &[0, 3, 4, 7]),
    (HANDLE_WRITE, "handle write", &[0, 3, 4, 6, 7]),
    (SHUTDOWN, "shutdown", &[0, 3, 4]),
    (STARTUP, "startup", &[0, 3, 4]),
];

marks! {
    TooShort "refused 8, too short",
    TooLong "refused 8, too long",
    ZeroByte "refused 9, zero byte",
    FirstMarkByte "refused 9, first mark byte",
    SecondMarkByte "refused 9, second mark byte",
    NoNodes "refused 10, no nodes",
    TooManyNodes "refused 10, too many nodes",
    ExtentBelow "refused 11, too little",
    ExtentAbove "refused 11, too much",
    ExtentWrapped "refused 11, right only modulo 2^32",
    RoomOneShort "refused 12, one byte short",
    RoomFarShort "refused 12, more bytes short",
    ListNull "list NULL",
    OutputNull "output NULL",
    OutputExact "output as long as needed",
    OutputLonger "output far longer",
    Notes "list with notes",
    NoRecords "list without records",
    LongestList "longest list",
    NoWrites "run without writes",
    MostWrites "run with 1,024 writes",
    EventsFull "event queue full",
    RequestsFull "request queue full",
    ResponsesFull "response queue full",
    TermLimit "term limit",
    TermLimitFull "term limit and event queue full",
    MasterClosed "switch's master closed",
    NobodyMaster "close that leaves nobody master, and tells it",
    NotFoundHeard "NotFound heard",
    NotFoundTurnsOff "NotFound heard by a node whose flag was on",
    MasterChanged "update that changes the switch's master",
    MasterKept "update that does not",
    Collision "collision",
    MasterCollision "collision of the switch's master",
    CollisionStopped "collision stopped by a full response queue",
    Accepted "write accepted",
    Denied "write denied",
    DeniedByTerm "write denied by its term alone",
    HistoryFull "history full",
    HistoryFullDenied "history full, write denied",
    HistoryFullResponses "history full and response queue full",
    HistoryFullDeniedResponses "history full, denied write stopped by a full response queue",
    MasterShutdown "shutdown with a master",
}

#[derive(Default)]
pub struct Reached {
    /// By kind, 0 for those that do not exist, and answer.
    answers: [[u64; 8]; ANSWERS.len()],
    marks: Counts,
}

impl Reached {
    pub fn nothing() -> Self {
        Reached { marks: Counts::of(NAMES), ..Default::default() }
    }

    pub fn mark(&mut self, mark: Mark, holds: bool) {
        self.marks.mark(mark, holds);
    }

    fn records(&self) -> u64 {
        self.answers.iter().flatten().sum()
    }

    /// Prints all counts and returns how many are missing.
    pub fn print(&self) -> usize {
        println!("{:16}{}", "answer", (0..8).map(|i| format!("{i:11}")).collect::<String>());
        for (kind, name, _) in ANSWERS {
            let counts = self.answers[usize::from(kind)];
            println!("{name:16}{}", counts.map(|count| format!("{count:11}")).concat());
        }
        self.marks.print();
        println!("{:11} records", self.records());
        self.marks.print_missing(&self.missing_answers())
    }

    fn missing_answers(&self) -> Vec<String> {
        let kinds = ANSWERS.iter().flat_map(|&(kind, name, answers)| {
            let unseen = move |&&answer: &&usize| self.answers[usize::from(kind)][answer] == 0;
            answers.iter().filter(unseen).map(move |answer| format!("{name} {answer}"))
        });
        kinds.collect()
    }

    /// Counts what a list reached for which the reference returned `result`.
    pub fn watch(&mut self, case: &Case, result: u32) {
        self.mark(Mark::ListNull, case.nulls && case.list.is_empty());
        self.mark(Mark::OutputNull, case.nulls && case.room == 0);
        self.mark(Mark::LongestList, case.list.len() == LONGEST_LIST && result >= RAN);
        match EventList::read(&case.list) {
            Ok(list) => self.watch_good(case, &list),
            Err(_) => self.watch_refused(&case.list, result),
        }
    }

    fn watch_refused(&mut self, list: &[u8], result: u32) {
        self.mark(Mark::TooShort, list.len() < TRAILER_BYTES);
        self.mark(Mark::TooLong, list.len() > LONGEST_LIST);
        if result == 8 {
            return;
        }
        let body = list.len() - TRAILER_BYTES;
        let trailer = &list[body..];
        let number = |at: usize| u32::from_le_bytes([0, 1, 2, 3].map(|i: usize| trailer[at + i]));
        let extent = number(0).wrapping_add(number(4).wrapping_mul(RECORD_BYTES as u32));
        self.mark(Mark::ZeroByte, result == 9 && trailer[9] != 0);
        self.mark(Mark::FirstMarkByte, result == 9 && trailer[10] != MARK[0]);
        self.mark(Mark::SecondMarkByte, result == 9 && trailer[11] != MARK[1]);
        self.mark(Mark::NoNodes, result == 10 && trailer[8] == 0);
        self.mark(Mark::TooManyNodes, result == 10 && trailer[8] > 0);
        self.mark(Mark::ExtentBelow, result == 11 && (extent as usize) < body);
        self.mark(Mark::ExtentAbove, result == 11 && extent as usize > body);
        self.mark(Mark::ExtentWrapped, result == 11 && extent as usize == body);
    }

    fn watch_good(&mut self, case: &Case, list: &EventList) {
        let needed = list.count() + HISTORY_BYTES;
        self.mark(Mark::RoomOneShort, case.room + 1 == needed);
        self.mark(Mark::RoomFarShort, case.room + 1 < needed);
        self.mark(Mark::OutputExact, case.room == needed);
        self.mark(Mark::OutputLonger, case.room > needed + 10_000);
        self.mark(Mark::Notes, !list.notes.is_empty());
        self.mark(Mark::NoRecords, list.count() == 0);
        if case.room >= needed {
            self.watch_run(list);
        }
    }

    fn watch_run(&mut self, list: &EventList) {
        let mut history = [0; HISTORY_BYTES];
        let mut state = State::fresh(list.nodes, &mut history);
        for record in list.records.chunks_exact(RECORD_BYTES) {
            let (kind, node) = (record[0], record[1]);
            let before = Before::of(&state, kind, node);
            let answer = answer_byte(state.step(kind, node));
            let known = if kind <= STARTUP { kind } else { 0 };
            self.answers[usize::from(known)][usize::from(answer)] += 1;
            if let Some(before) = before {
                before.mark(self, answer, &state);
            }
        }
        self.mark(Mark::NoWrites, state.history.is_empty());
        self.mark(Mark::MostWrites, state.history.is_full());
    }
}
