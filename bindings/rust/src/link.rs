//! Records that come off a link, cut anywhere: the bytes as they come, and a line for each record at its last byte.

use std::fmt;
use std::io::{self, ErrorKind, Read};
use std::iter::{Flatten, FusedIterator};
use std::ops::Range;
use std::thread;
use std::time::Duration;

use crate::entries::{self, FLOATS, HEAD, LINE};
use crate::Refusal;

/// Bytes of a link past this number of them count as not there.
pub const MOST_BYTES: u64 = 1 << 63;

/// A reader of records (section 12 of `docs/RULES.md`) that is fed portions of bytes, cut anywhere, and is then told the
/// end. However the bytes are cut, the lines are the same.
///
/// It holds the rows of one record, and nothing of a record that is skipped: about 48 KiB, all of it in the link itself.
/// It allocates nothing; where it is moved about, or a stack is small, it may be put into a `Box`.
///
/// ```
/// use ravelsickle::{Link, Refusal};
///
/// let mut link = Link::new();
/// // a record of kind 9 with a body of one byte, cut within its length; then two bytes of another
/// assert_eq!(link.feed(&[1, 0])?.count(), 0);
/// for line in link.feed(&[0, 0, 9, 0, 255, 7, 7])? {
///     assert_eq!(line.as_str(), "1 refused 9");
/// }
/// let end = link.end()?;
/// assert_eq!(end.cut.expect("a record is cut").as_str(), "2 refused 8");
/// assert_eq!(end.closing.as_str(), "end 2");
/// assert_eq!(link.end(), Err(Refusal::Ended));
/// # Ok::<(), Refusal>(())
/// ```
#[derive(Clone)]
pub struct Link {
    reader: entries::Reader,
    /// The floats of the rows of the record in hand.
    rows: [f64; FLOATS],
    /// What stands before them.
    head: [u8; HEAD],
}

/// What a step took and gave.
#[derive(Clone, Copy, Debug, PartialEq, Eq)]
pub struct Taken {
    /// How many bytes of the portion were taken: up to the first record's end, or all.
    pub bytes: usize,
    /// The line of the record that ended with the last of them.
    pub line: Option<Line>,
}

/// The last lines of a link. As an iterator it gives them in their order.
#[derive(Clone, Copy, Debug, PartialEq, Eq)]
pub struct End {
    /// The line of a record that is cut, refusal 8 in it.
    pub cut: Option<Line>,
    /// `end` and the number of lines before it.
    pub closing: Line,
}

impl IntoIterator for End {
    type Item = Line;
    type IntoIter = Flatten<std::array::IntoIter<Option<Line>, 2>>;

    fn into_iter(self) -> Self::IntoIter {
        [self.cut, Some(self.closing)].into_iter().flatten()
    }
}

impl Link {
    /// A link that has seen nothing.
    pub fn new() -> Link {
        Link::within(MOST_BYTES)
    }

    /// A link for which bytes past the first `limit` count as not there. A limit above [`MOST_BYTES`] is that number.
    ///
    /// ```
    /// let mut link = ravelsickle::Link::within(6);
    /// let lines = link.feed(&[0, 0, 0, 0, 9, 0, 0, 0, 0, 0, 9, 0])?.count();
    /// assert_eq!((lines, link.end()?.cut), (1, None));
    /// # Ok::<(), ravelsickle::Refusal>(())
    /// ```
    pub fn within(limit: u64) -> Link {
        Link {
            // SAFETY: the entry takes a number and gives a record.
            reader: unsafe { entries::ravelsickle_reader_start(limit) },
            rows: [0.0; FLOATS],
            head: [0; HEAD],
        }
    }

    /// One step: takes bytes up to the first record's end, or all of them, and says how many; the rest is to be handed in
    /// again. No bytes change nothing. Refusal 12 after the end. [`feed`](Link::feed) goes on to the last byte.
    ///
    /// ```
    /// let mut link = ravelsickle::Link::new();
    /// let taken = link.take(&[0, 0, 0, 0, 9, 0, 0, 0])?;
    /// assert_eq!(taken.bytes, 6);
    /// assert_eq!(taken.line.expect("a record ended").as_str(), "1 refused 9");
    /// # Ok::<(), ravelsickle::Refusal>(())
    /// ```
    pub fn take(&mut self, bytes: &[u8]) -> Result<Taken, Refusal> {
        let mut text = [0; LINE];
        // SAFETY: the pointer and the length of the bytes are those of one slice, which the entry only reads; everything
        // else is lent mutably, in the size that its type says.
        let fed = unsafe {
            entries::ravelsickle_reader_feed(
                self.reader,
                &mut self.head,
                &mut self.rows,
                bytes.as_ptr(),
                bytes.len(),
                &mut text,
            )
        };
        self.reader = fed.reader;
        Refusal::check(fed.refusal, 0)?;
        Ok(Taken {
            bytes: fed.taken,
            line: printed(&text, fed.printed).lines().next().map(Line::of),
        })
    }

    /// Feeds a portion: gives the lines of all records that end in it, each as soon as its record is taken. Refusal 12
    /// after the end, also for no bytes.
    pub fn feed<'bytes>(&mut self, bytes: &'bytes [u8]) -> Result<Feed<'_, 'bytes>, Refusal> {
        // no bytes change nothing, and are refused where any would be
        self.take(&[])?;
        Ok(Feed { link: self, bytes })
    }

    /// Tells the end. Refusal 12 after the end.
    ///
    /// ```
    /// let mut link = ravelsickle::Link::new();
    /// let last: Vec<String> = link.end()?.into_iter().map(|line| line.to_string()).collect();
    /// assert_eq!(last, ["end 0"]);
    /// # Ok::<(), ravelsickle::Refusal>(())
    /// ```
    pub fn end(&mut self) -> Result<End, Refusal> {
        let mut text = [0; LINE];
        // SAFETY: both pointers lead to arrays in the sizes that their types say; the entry only reads the first.
        let fed = unsafe { entries::ravelsickle_reader_end(self.reader, &self.head, &mut text) };
        self.reader = fed.reader;
        Refusal::check(fed.refusal, 0)?;
        let mut lines = printed(&text, fed.printed).lines().map(Line::of);
        Ok(End {
            closing: lines.next_back().expect("an end has its closing line"),
            cut: lines.next(),
        })
    }
}

impl Default for Link {
    fn default() -> Link {
        Link::new()
    }
}

/// Shows the numbers alone: the rows are many, and say little while they come.
impl fmt::Debug for Link {
    fn fmt(&self, f: &mut fmt::Formatter<'_>) -> fmt::Result {
        f.debug_struct("Link")
            .field("reader", &self.reader)
            .finish_non_exhaustive()
    }
}

/// What an entry printed.
fn printed(text: &[u8; LINE], bytes: usize) -> &str {
    std::str::from_utf8(&text[..bytes]).expect("the library prints ASCII")
}

/// The lines of a portion that is being fed.
///
/// Bytes that were fed have come, whether or not anybody looks at their lines. So a feed that is dropped early takes the
/// rest of its bytes, as [`Vec::drain`] does with its elements, and the lines that nobody asked for are lost: without this
/// the link would lose its place, and take the next portion for the middle of a record. Whoever wants to stop and go on
/// later ends the feed by [`rest`](Feed::rest), and feeds what that gives back.
///
/// ```
/// let mut link = ravelsickle::Link::new();
/// let records = [0, 0, 0, 0, 9, 0].repeat(3);
/// let mut feed = link.feed(&records)?;
/// assert_eq!(feed.next().expect("a record ended").as_str(), "1 refused 9");
/// let rest = feed.rest();
/// assert_eq!(rest.len(), 12);
/// drop(link.feed(rest)?);
/// assert_eq!(link.end()?.closing.as_str(), "end 3");
/// # Ok::<(), ravelsickle::Refusal>(())
/// ```
#[derive(Debug)]
#[must_use = "a feed that is dropped takes its bytes, and their lines are lost"]
pub struct Feed<'link, 'bytes> {
    link: &'link mut Link,
    /// The bytes that are not taken yet.
    bytes: &'bytes [u8],
}

impl<'bytes> Feed<'_, 'bytes> {
    /// Stops here, and gives back the bytes that are not taken, which are to be fed again.
    pub fn rest(mut self) -> &'bytes [u8] {
        std::mem::take(&mut self.bytes)
    }
}

impl Iterator for Feed<'_, '_> {
    type Item = Line;

    fn next(&mut self) -> Option<Line> {
        if self.bytes.is_empty() {
            return None;
        }
        // a step without a line took all bytes
        let taken = self.link.take(self.bytes).expect("the link has not ended");
        self.bytes = &self.bytes[taken.bytes..];
        taken.line
    }
}

impl FusedIterator for Feed<'_, '_> {}

impl Drop for Feed<'_, '_> {
    fn drop(&mut self) {
        for _ in self {}
    }
}

/// A line, without its newline.
#[derive(Clone, Copy, PartialEq, Eq, Hash)]
pub struct Line {
    /// The text, and zeros behind it.
    text: [u8; LINE],
    length: usize,
}

impl Line {
    fn of(text: &str) -> Line {
        let mut line = Line {
            text: [0; LINE],
            length: text.len(),
        };
        line.text[..text.len()].copy_from_slice(text.as_bytes());
        line
    }

    /// The text.
    pub fn as_str(&self) -> &str {
        printed(&self.text, self.length)
    }
}

impl AsRef<str> for Line {
    fn as_ref(&self) -> &str {
        self.as_str()
    }
}

impl fmt::Display for Line {
    fn fmt(&self, f: &mut fmt::Formatter<'_>) -> fmt::Result {
        fmt::Display::fmt(self.as_str(), f)
    }
}

impl fmt::Debug for Line {
    fn fmt(&self, f: &mut fmt::Formatter<'_>) -> fmt::Result {
        fmt::Debug::fmt(self.as_str(), f)
    }
}

/// Bytes that are asked for at once.
const PORTION: usize = 4096;

/// How long to wait where an input that does not wait has nothing yet.
const PAUSE: Duration = Duration::from_millis(1);

/// The lines of all records that an input gives: a socket, a serial line, a pipe, a file. Each line is given before more is
/// read, and so as soon as its record's last byte is there; then come the last lines.
///
/// A read that is interrupted is tried again, and so is one that would block, after a millisecond. Any other error is given
/// once, and is the last that is given: the input has not ended, so there is no closing line.
///
/// It holds a [`Link`] and a buffer of 4,096 bytes, about 52 KiB.
///
/// ```
/// let input = [0, 0, 0, 0, 9, 0, 255];
/// let lines: Vec<_> = ravelsickle::Lines::new(&input[..]).collect::<Result<_, _>>()?;
/// assert_eq!(lines[0].as_str(), "1 refused 9");
/// assert_eq!(lines[1].as_str(), "2 refused 8");
/// assert_eq!(lines[2].as_str(), "end 2");
/// # Ok::<(), std::io::Error>(())
/// ```
pub struct Lines<R> {
    input: R,
    link: Link,
    portion: [u8; PORTION],
    /// The bytes of the portion that were read and not taken yet.
    waiting: Range<usize>,
    /// The last lines that are still to be given; `None` until the input is over.
    last: Option<<End as IntoIterator>::IntoIter>,
}

impl<R: Read> Lines<R> {
    /// The lines of what this input gives.
    pub fn new(input: R) -> Lines<R> {
        Lines {
            input,
            link: Link::new(),
            portion: [0; PORTION],
            waiting: 0..0,
            last: None,
        }
    }

    /// The next line of what was read.
    fn taken(&mut self) -> Option<Line> {
        let bytes = &self.portion[self.waiting.clone()];
        let taken = self.link.take(bytes).expect("the link has not ended");
        self.waiting.start += taken.bytes;
        taken.line
    }

    /// The last lines.
    fn end(&mut self) -> End {
        self.link.end().expect("the link has not ended")
    }

    /// Reads a portion and says how many bytes it has: none where the input has ended.
    fn read(&mut self) -> io::Result<usize> {
        loop {
            match self.input.read(&mut self.portion) {
                Err(error) if error.kind() == ErrorKind::Interrupted => {}
                Err(error) if error.kind() == ErrorKind::WouldBlock => thread::sleep(PAUSE),
                got => return got,
            }
        }
    }
}

impl<R: Read> Iterator for Lines<R> {
    type Item = io::Result<Line>;

    fn next(&mut self) -> Option<io::Result<Line>> {
        loop {
            if let Some(last) = &mut self.last {
                return last.next().map(Ok);
            }
            if let Some(line) = self.taken() {
                return Some(Ok(line));
            }
            match self.read() {
                Ok(0) => self.last = Some(self.end().into_iter()),
                Ok(bytes) => self.waiting = 0..bytes,
                Err(error) => {
                    self.last = Some([None, None].into_iter().flatten());
                    return Some(Err(error));
                }
            }
        }
    }
}

impl<R: Read> FusedIterator for Lines<R> {}

#[cfg(test)]
mod tests {
    use super::*;

    /// All that a link holds, floats by their bits.
    fn state(link: &Link) -> (entries::Reader, Vec<u64>, [u8; HEAD]) {
        let rows = link.rows.iter().map(|x| x.to_bits()).collect();
        (link.reader, rows, link.head)
    }

    /// A link in the middle of the second float of a record's rows.
    fn in_the_middle() -> Link {
        let mut link = Link::new();
        let mut bytes = vec![49 + 24, 0, 0, 0, 1, 0];
        bytes.extend([7; 49 + 8 + 3]);
        assert_eq!(link.feed(&bytes).map(Iterator::count), Ok(0));
        link
    }

    #[test]
    fn no_bytes_change_nothing() {
        for mut link in [Link::new(), in_the_middle()] {
            let before = state(&link);
            let nothing = Taken {
                bytes: 0,
                line: None,
            };
            assert_eq!(link.take(&[]), Ok(nothing));
            assert_eq!(link.feed(&[]).map(Iterator::count), Ok(0));
            assert_eq!(state(&link), before);
        }
    }

    #[test]
    fn refusal_12_changes_nothing() {
        for mut link in [Link::new(), in_the_middle()] {
            assert!(link.end().is_ok());
            let before = state(&link);
            assert_eq!(link.take(&[7]), Err(Refusal::Ended));
            assert!(link.feed(&[7]).is_err());
            assert_eq!(link.end(), Err(Refusal::Ended));
            assert_eq!(state(&link), before);
        }
    }

    #[test]
    fn a_link_holds_the_rows_of_one_record() {
        assert_eq!(std::mem::size_of::<Link>(), 40 + 8 * FLOATS + 56);
    }
}
