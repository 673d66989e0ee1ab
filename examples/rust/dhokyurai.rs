//! A safe wrapper over the static library, without dependencies. include/dhokyurai.h says what each call promises.

mod c {
    extern "C" {
        pub fn dhokyurai_memory_length() -> usize;
        pub fn dhokyurai_open(memory: *mut u8, length: usize, a: *mut usize, b: *mut usize, c: *mut usize) -> u8;
        pub fn dhokyurai_put(
            memory: *mut u8, length: usize, place: usize, text: *const u8, text_length: usize, a: *mut usize, b: *mut usize, c: *mut usize,
        ) -> u8;
        pub fn dhokyurai_full_name(
            memory: *const u8, length: usize, place: usize, row: usize, buffer: *mut u8, buffer_length: usize, a: *mut usize, b: *mut usize,
        ) -> u8;
        pub fn dhokyurai_canonical(
            memory: *const u8, length: usize, place: usize, buffer: *mut u8, buffer_length: usize, offset: usize, a: *mut usize, b: *mut usize,
        ) -> u8;
        pub fn dhokyurai_canonical_length(memory: *const u8, length: usize, place: usize, a: *mut usize, b: *mut usize) -> u8;
        pub fn dhokyurai_fingerprint(
            memory: *const u8, length: usize, place: usize, fingerprint: *mut i64, a: *mut usize, b: *mut usize,
        ) -> u8;
        pub fn dhokyurai_summary(
            memory: *const u8, length: usize, summary: *const u8, summary_length: usize, list: *mut usize, list_length: usize, a: *mut usize, b: *mut usize,
        ) -> u8;
        pub fn dhokyurai_find(memory: *const u8, length: usize, fingerprint: i64, a: *mut usize, b: *mut usize) -> u8;
        pub fn dhokyurai_datum(
            memory: *const u8, length: usize, place: usize, datum: *const u8, datum_length: usize, list: *mut usize, list_length: usize, a: *mut usize, b: *mut usize,
        ) -> u8;
    }
}

/// Why a call was refused: document 01's number, the declaration's place in the set, the byte position in its text, in the summary or in the datum.
#[derive(Debug, Clone, Copy, PartialEq, Eq)]
pub struct Refusal {
    pub number: u8,
    pub place: usize,
    pub position: usize,
}

/// How many declarations, rows and string bytes a set has.
#[derive(Debug, Clone, Copy, PartialEq, Eq)]
pub struct Counts {
    pub declarations: usize,
    pub rows: usize,
    pub string_bytes: usize,
}

/// What was read of a datum: its declaration's place, and the offsets of its fields' data and of its end, in the list that was lent.
#[derive(Debug, Clone, Copy, PartialEq, Eq)]
pub struct Reading<'a> {
    pub place: usize,
    pub offsets: &'a [usize],
}

/// So many numbers are enough for any summary.
pub const OFFSETS: usize = 4097;

/// A set of declarations, and how many they are.
#[derive(Clone)]
pub struct Set {
    memory: Vec<u8>,
    count: usize,
}

fn told(number: u8, place: usize, position: usize) -> Result<(), Refusal> {
    if number == 0 { Ok(()) } else { Err(Refusal { number, place, position }) }
}

fn counted(number: u8, a: usize, b: usize, c: usize) -> Result<Counts, Refusal> {
    told(number, a, b).map(|()| Counts { declarations: a, rows: b, string_bytes: c })
}

impl Default for Set {
    fn default() -> Self {
        Set::new()
    }
}

impl Set {
    /// The empty set.
    pub fn new() -> Set {
        let (mut a, mut b, mut c) = (0, 0, 0);
        // SAFETY: the vector has as many bytes as are said, and the numbers are its own.
        let mut memory = vec![0; unsafe { c::dhokyurai_memory_length() }];
        unsafe { c::dhokyurai_open(memory.as_mut_ptr(), memory.len(), &mut a, &mut b, &mut c) };
        Set { memory, count: a }
    }

    /// How many declarations the set has: the place at which `put` puts one more.
    pub fn count(&self) -> usize {
        self.count
    }

    /// Puts the declaration that the text holds at a place: in place of the one that stands there, or at the set's end where the place is the count.
    pub fn put(&mut self, place: usize, text: &[u8]) -> Result<Counts, Refusal> {
        let (mut a, mut b, mut c) = (0, 0, 0);
        // SAFETY: pointers and lengths are those of one vector and one slice, which cannot overlap.
        let number = unsafe {
            c::dhokyurai_put(
                self.memory.as_mut_ptr(), self.memory.len(), place, text.as_ptr(), text.len(), &mut a, &mut b, &mut c,
            )
        };
        let counts = counted(number, a, b, c)?;
        self.count = counts.declarations;
        Ok(counts)
    }

    /// The full name of a row: of a definition, its alias or a reference.
    pub fn full_name(&self, place: usize, row: usize) -> Result<String, Refusal> {
        let (mut a, mut b) = (0, 0);
        let mut buffer = [0u8; 255];
        // SAFETY: pointers and lengths are those of one vector and one array.
        let number = unsafe {
            c::dhokyurai_full_name(
                self.memory.as_ptr(), self.memory.len(), place, row, buffer.as_mut_ptr(), buffer.len(), &mut a, &mut b,
            )
        };
        told(number, a, b)?;
        Ok(String::from_utf8_lossy(&buffer[..a]).into_owned())
    }

    /// The canonical text of the declaration at a place.
    pub fn canonical(&self, place: usize) -> Result<String, Refusal> {
        let (mut a, mut b) = (0, 0);
        // SAFETY: pointers and lengths are those of one vector.
        let number = unsafe { c::dhokyurai_canonical_length(self.memory.as_ptr(), self.memory.len(), place, &mut a, &mut b) };
        told(number, a, b)?;
        let mut text = vec![0u8; a];
        // SAFETY: pointers and lengths are those of two vectors.
        let number = unsafe {
            c::dhokyurai_canonical(
                self.memory.as_ptr(), self.memory.len(), place, text.as_mut_ptr(), text.len(), 0, &mut a, &mut b,
            )
        };
        told(number, a, b)?;
        Ok(String::from_utf8_lossy(&text).into_owned())
    }

    /// The Rabin fingerprint of that text.
    pub fn fingerprint(&self, place: usize) -> Result<i64, Refusal> {
        let (mut fingerprint, mut a, mut b) = (0, 0, 0);
        // SAFETY: pointer and length are those of one vector.
        let number = unsafe {
            c::dhokyurai_fingerprint(self.memory.as_ptr(), self.memory.len(), place, &mut fingerprint, &mut a, &mut b)
        };
        told(number, a, b).map(|()| fingerprint)
    }

    /// Reads a summary in Avro's single-object encoding. Offsets count from its first byte.
    pub fn summary<'a>(&self, summary: &[u8], list: &'a mut [usize]) -> Result<Reading<'a>, Refusal> {
        let (mut a, mut b) = (0, 0);
        // SAFETY: pointers and lengths are those of one vector and two slices, of which the one that is written is lent to nobody else.
        let number = unsafe {
            c::dhokyurai_summary(
                self.memory.as_ptr(), self.memory.len(), summary.as_ptr(), summary.len(), list.as_mut_ptr(), list.len(), &mut a, &mut b,
            )
        };
        told(number, a, b)?;
        Ok(Reading { place: a, offsets: &list[..b] })
    }

    /// The first place whose declaration has a fingerprint.
    pub fn find(&self, fingerprint: i64) -> Result<usize, Refusal> {
        let (mut a, mut b) = (0, 0);
        // SAFETY: pointer and length are those of one vector.
        let number = unsafe { c::dhokyurai_find(self.memory.as_ptr(), self.memory.len(), fingerprint, &mut a, &mut b) };
        told(number, a, b).map(|()| a)
    }

    /// Reads a datum alone by the declaration at a place. Offsets count from the datum's first byte.
    pub fn datum<'a>(&self, place: usize, datum: &[u8], list: &'a mut [usize]) -> Result<Reading<'a>, Refusal> {
        let (mut a, mut b) = (0, 0);
        // SAFETY: pointers and lengths are those of one vector and two slices, of which the one that is written is lent to nobody else.
        let number = unsafe {
            c::dhokyurai_datum(
                self.memory.as_ptr(), self.memory.len(), place, datum.as_ptr(), datum.len(), list.as_mut_ptr(), list.len(), &mut a, &mut b,
            )
        };
        told(number, a, b)?;
        Ok(Reading { place: a, offsets: &list[..b] })
    }
}
