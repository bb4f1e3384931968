// A post: `post PACK STATE < lines > own lines`, as examples/post.c, which talks to this one. It loads the pack file, takes the
// other posts' and the dealers' lines and sends its own, until it has opened the charge, rides x rate + 80, and rides x rate − fee,
// which is 0 where the fee is right.

use std::error::Error;
use std::fs::{self, File, OpenOptions};
use std::io::{self, BufRead, Write};
use std::os::unix::fs::OpenOptionsExt;
use std::path::{Path, PathBuf};

use gantsorol::*;

// The station of examples/plan.h.
const N: usize = 3;
const T: usize = 1;
const POINTS: usize = 2;
const RIDES: usize = 0;
const RATE: usize = 1;
const FEE: usize = 2;
const TRIPLE: usize = 3;
const PRODUCT: usize = TRIPLE + 2;
const OTHER_TRIPLE: usize = 6;
const CHARGE: usize = 9;
const SUM: usize = 10;
const FIXED: u32 = 80;
const CALLER: usize = 1;
const TERMS: [Term; 2] =
    [Term::product(1, RIDES, RATE, OTHER_TRIPLE), Term::plain(MODULUS - 1, FEE)];

// The numbers of a stored session before its lists.
const HEADS: usize = 6;

type Failed = Box<dyn Error>;
type Record = [u32; record_len(N, T, POINTS)];

struct Post<W> {
    session: Session,
    rows: [u32; rows_len(N, T, POINTS)],
    // The post's own lines, to be sent again after a power loss.
    sent: Vec<u8>,
    state: PathBuf,
    output: W,
    product_records: [Record; 2],
    relation_records: [Record; 2],
    charge_record: Record,
    sum_record: Record,
}

// Whether a step was done. Until its time has come, and after it, 7 or 9 says so.
fn done(answer: Result<u32, Refusal>) -> bool {
    if let Err(refusal) = answer {
        if !matches!(refusal, Refusal::WrongMark | Refusal::TooFewAccepted) {
            eprintln!("post: {refusal}");
        }
    }
    answer.is_ok()
}

impl<W: Write> Post<W> {
    fn new(state: &Path, output: W) -> Self {
        let record: Record = [0; record_len(N, T, POINTS)];
        Self {
            session: Session::default(),
            rows: [0; rows_len(N, T, POINTS)],
            sent: vec![],
            state: state.into(),
            output,
            product_records: [record; 2],
            relation_records: [record; 2],
            charge_record: record,
            sum_record: record,
        }
    }

    // The library writes pack files and reads none. The file's text is erased, whatever it is.
    fn load(&mut self, pack: &Path) -> Result<(), Failed> {
        let mut text = fs::read(pack)?;
        let loaded = self.load_text(&text);
        erase(&mut text);
        loaded?;
        let right = (self.session.n, self.session.t, self.session.points) == (N, T, POINTS);
        right.then_some(()).ok_or_else(|| "the pack file is of another station".into())
    }

    fn load_text(&mut self, text: &[u8]) -> Result<(), Failed> {
        // Room for the longest line: a list that grows leaves its numbers where it stood.
        let mut numbers = Vec::with_capacity(1 + triple_pack_len(N, T, POINTS));
        let loaded = str::from_utf8(text)?.lines().try_for_each(|line| {
            let (letter, fields) =
                line.split_once(',').ok_or("a line of the pack file has no numbers")?;
            numbers.clear();
            for field in fields.split(',').take(numbers.capacity()) {
                numbers.push(field.parse()?);
            }
            self.load_line(letter, &numbers)
        });
        erase(&mut numbers);
        loaded
    }

    fn load_line(&mut self, letter: &str, numbers: &[u32]) -> Result<(), Failed> {
        let (session, rows) = (self.session.take(), &mut self.rows);
        let answer = match (letter, numbers) {
            // One check point, or two.
            ("S" | "W", [n, t, post, own @ ..]) if own.len() == 1 + usize::from(letter == "W") => {
                Session::new(*n as usize, *t as usize, *post as usize, own)
            }
            ("R", [row, pack @ ..]) => session.load_row(rows, *row as usize, pack),
            ("T", [row, pack @ ..]) => session.load_triple(rows, *row as usize, pack),
            _ => return Err("the pack file has another line".into()),
        };
        answer.keep(&mut self.session)?;
        Ok(())
    }

    // A new file, written through to the disk, takes the old one's place.
    fn store(&self) -> io::Result<()> {
        let Session { n, t, post, points, first, second, .. } = self.session;
        let Session { marks, factor_a, factor_b, y_a, y_b, barred, .. } = &self.session;
        let heads = [n as u32, t as u32, post as u32, points as u32, first, second];
        let lists = [&heads[..], y_a, y_b, barred, &self.rows];
        // Room for all: a list that grows leaves its bytes where it stood.
        let len =
            4 * lists.iter().map(|list| list.len()).sum::<usize>() + 3 * ROWS + self.sent.len();
        let mut bytes = Vec::with_capacity(len);
        bytes.extend(lists.into_iter().flatten().flat_map(|number| number.to_le_bytes()));
        bytes.extend([marks, factor_a, factor_b].into_iter().flatten().chain(&self.sent));
        let new = self.state.with_extension("new");
        let _ = fs::remove_file(&new);
        let mut file = OpenOptions::new().write(true).create_new(true).mode(0o600).open(&new)?;
        file.write_all(&bytes)?;
        file.sync_all()?;
        erase(&mut bytes);
        fs::rename(new, &self.state)?;
        // Without this the old state may be back after a power loss.
        let folder = self.state.parent().filter(|folder| !folder.as_os_str().is_empty());
        File::open(folder.unwrap_or(Path::new(".")))?.sync_all()
    }

    // The state from before a power loss; its lines are sent again.
    fn restore(&mut self, mut file: File) -> Result<(), Failed> {
        let mut bytes = Vec::with_capacity(file.metadata()?.len() as usize + 1);
        io::Read::read_to_end(&mut file, &mut bytes)?;
        let mut rest = &bytes[..];
        let mut part = |len: usize| rest.split_off(..len).ok_or("the state cannot be read");
        let stored = part(4 * (HEADS + 2 * ROWS + SETS_LEN + rows_len(N, T, POINTS)))?;
        let mut numbers = Vec::with_capacity(stored.len() / 4);
        numbers.extend(stored.chunks(4).map(|b| u32::from_le_bytes([b[0], b[1], b[2], b[3]])));
        let (heads, lists) = numbers.split_at(HEADS);
        let s = &mut self.session;
        (s.n, s.t, s.post) = (heads[0] as usize, heads[1] as usize, heads[2] as usize);
        (s.points, s.first, s.second) = (heads[3] as usize, heads[4], heads[5]);
        s.y_a.copy_from_slice(&lists[..ROWS]);
        s.y_b.copy_from_slice(&lists[ROWS..2 * ROWS]);
        let (barred, rows) = lists[2 * ROWS..].split_at(SETS_LEN);
        s.barred.copy_from_slice(barred);
        self.rows.copy_from_slice(rows);
        for list in [&mut s.marks, &mut s.factor_a, &mut s.factor_b] {
            list.copy_from_slice(part(ROWS)?);
        }
        self.sent = rest.to_vec();
        erase(&mut numbers);
        erase(&mut bytes);
        self.output.write_all(&self.sent)?;
        Ok(self.output.flush()?)
    }

    // Session and rows are stored before the line is sent: with an older session a triple would be used twice.
    fn send(&mut self, line: &[u8]) -> io::Result<()> {
        self.sent.extend(line);
        self.store()?;
        self.output.write_all(line)?;
        self.output.flush()
    }

    fn send_masks(&mut self, first: usize, masks: &[u32]) -> Result<(), Failed> {
        let mut line = [0; masks_line_len(N, T, POINTS)];
        let len =
            write_masks(N, T, POINTS, first, self.session.post, masks, &mut line).accepted()?;
        Ok(self.send(&line[..len])?)
    }

    // For the post that calls for the row: here always post 1, as the plan has it. Where calls are heard, the caller is the post
    // that the carrier knows the call to come from; one that the row bars gets 15, and nothing is sent.
    fn send_opening(&mut self, row: usize) -> Result<(), Failed> {
        let (mut message, mut line) =
            ([0; message_len(T, POINTS)], [0; opening_line_len(N, T, POINTS)]);
        let session = &mut self.session;
        let sent = session.take().opening_message(&self.rows, row, CALLER, &mut message);
        if !done(sent.keep(session)) {
            return Ok(());
        }
        let len = write_opening(N, T, POINTS, row, session.post, &message, &mut line).accepted()?;
        Ok(self.send(&line[..len])?)
    }

    // Masks once both factors are dealt, the product once t+1 posts' masks are accepted, then the fixed fee.
    fn go_on_with_the_charge(&mut self) -> Result<(), Failed> {
        let mut masks = [0; masks_len(T, POINTS)];
        let (session, rows) = (&mut self.session, &mut self.rows);
        if done(session.take().masks(rows, RIDES, RATE, TRIPLE, &mut masks).keep(session)) {
            self.send_masks(TRIPLE, &masks)?;
        }
        let (session, rows, [a, b]) = (&mut self.session, &mut self.rows, &self.product_records);
        if done(session.take().collect(rows, TRIPLE, a, b).keep(session))
            && done(session.take().multiply(rows, TRIPLE).keep(session))
            && done(session.take().linear(rows, CHARGE, PRODUCT, PRODUCT, 0, FIXED).keep(session))
        {
            self.send_opening(CHARGE)?;
        }
        Ok(())
    }

    // The same in two calls, which leave the sum of the terms in a row.
    fn go_on_with_the_relation(&mut self) -> Result<(), Failed> {
        let mut masks = [0; relation_masks_len(T, POINTS, 1)];
        let (session, rows) = (&mut self.session, &mut self.rows);
        if done(session.take().relation_masks(rows, &TERMS, &mut masks).keep(session)) {
            self.send_masks(OTHER_TRIPLE, &masks)?;
        }
        let (session, records) = (&mut self.session, self.relation_records.concat());
        let rows = &mut self.rows;
        if done(session.take().relation_finish(rows, &TERMS, SUM, &records).keep(session)) {
            self.send_opening(SUM)?;
        }
        Ok(())
    }

    fn take_line(&mut self, text: &[u8]) -> Result<(), Failed> {
        // An A line says who may call for a row's opening.
        if text.first() == Some(&b'A') {
            let session = &mut self.session;
            if done(session.take().access(text).keep(session)) {
                self.store()?;
            }
            return Ok(());
        }
        let mut numbers = [0; line_list_len(T, POINTS)];
        let Ok(line) = read(N, T, POINTS, text, &mut numbers)
            .accepted()
            .inspect_err(|why| eprintln!("post: {why}"))
        else {
            return Ok(());
        };
        let (a, b) = numbers.split_at(message_len(T, POINTS));
        match (line.letter, line.row) {
            (b'D', row) => {
                let session = &mut self.session;
                if done(session.take().deal(&mut self.rows, row, numbers[0]).keep(session)) {
                    self.store()?;
                }
            }
            (b'M', TRIPLE) => hear(&mut self.product_records, line.post, [a, b])?,
            (b'M', OTHER_TRIPLE) => hear(&mut self.relation_records, line.post, [a, b])?,
            (b'O', CHARGE) => record_put(N, T, POINTS, &mut self.charge_record, line.post, a)?,
            (b'O', SUM) => record_put(N, T, POINTS, &mut self.sum_record, line.post, a)?,
            _ => (),
        }
        Ok(())
    }

    fn opened(&mut self) -> Option<(u32, u32)> {
        let (session, rows) = (&mut self.session, &self.rows);
        let charge = session.take().open(rows, CHARGE, &self.charge_record).keep(session);
        let sum = session.take().open(rows, SUM, &self.sum_record).keep(session);
        (done(charge) & done(sum)).then_some((charge.ok()?, sum.ok()?))
    }

    // Once its last number is opened a post needs nothing of this.
    fn erase_all(mut self) -> io::Result<()> {
        self.session.erase();
        erase(&mut self.rows);
        erase(&mut self.sent);
        self.product_records.iter_mut().chain(&mut self.relation_records).for_each(|r| erase(r));
        erase(&mut self.charge_record);
        erase(&mut self.sum_record);
        fs::remove_file(&self.state)
    }
}

// Both masks of a post, into their records. A later message of the same post takes the place of an earlier one.
fn hear(records: &mut [Record; 2], post: usize, masks: [&[u32]; 2]) -> Result<(), Refusal> {
    records
        .iter_mut()
        .zip(masks)
        .try_for_each(|(record, mask)| record_put(N, T, POINTS, record, post, mask))
}

// What a post opens: its number, the charge, and whether the fee is right.
fn run(
    pack: &Path,
    state: &Path,
    input: impl BufRead,
    output: impl Write,
) -> Result<String, Failed> {
    let mut post = Post::new(state, output);
    match File::open(state) {
        Ok(file) => post.restore(file)?,
        Err(_) => post.load(pack).and_then(|()| Ok(post.store()?))?,
    }
    for line in input.split(b'\n') {
        post.take_line(&[&line?[..], b"\n"].concat())?;
        post.go_on_with_the_charge()?;
        post.go_on_with_the_relation()?;
        if let Some((charge, sum)) = post.opened() {
            let (number, fee) = (post.session.post, if sum == 0 { "right" } else { "not right" });
            post.erase_all()?;
            return Ok(format!("post {number}: the charge is {charge}, the fee is {fee}"));
        }
    }
    Err("the lines ended before both numbers were opened".into())
}

fn main() -> Result<(), Failed> {
    let mut arguments = std::env::args_os().skip(1).map(PathBuf::from);
    let (Some(pack), Some(state)) = (arguments.next(), arguments.next()) else {
        return Err("which pack file, and where to keep the state?".into());
    };
    eprintln!("{}", run(&pack, &state, io::stdin().lock(), io::stdout())?);
    Ok(())
}
