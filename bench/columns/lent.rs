// A lent column (docs/FORMAT.md), and the calls that are timed.

// A slice passes as pointer and length.
extern "C" {
    fn lafkuno_column_ground(
        formats: *const u8, formats_len: usize, schema: *const u32, schema_len: usize, lengths: *const u64, lengths_len: usize,
        places: *const u64, places_len: usize, buffers: *const u64, buffers_len: usize, body: *const u8, body_len: usize,
        first: u32, n: u32,
    ) -> u8;
    fn lafkuno_open_column(
        formats: *const u8, formats_len: usize, schema: *const u32, schema_len: usize, lengths: *const u64, lengths_len: usize,
        places: *const u64, places_len: usize, buffers: *const u64, buffers_len: usize, body: *const u8, body_len: usize,
        first: u32, n: u32, room: *mut u64, room_len: usize,
    ) -> u8;
    fn lafkuno_read_row(
        tree: *const u64, tree_len: usize, lengths: *const u64, lengths_len: usize, places: *const u64, places_len: usize,
        buffers: *const u64, buffers_len: usize, body: *const u8, body_len: usize, first: u32, row: u64,
        answer: *mut u64, answer_len: usize,
    ) -> u8;
}

#[derive(Clone, Default)]
pub struct Lent {
    pub formats: Vec<u8>,
    pub schema: Vec<u32>,
    pub lengths: Vec<u64>,
    pub places: Vec<u64>,
    pub buffers: Vec<u64>,
    pub body: Vec<u8>,
}

impl Lent {
    pub fn node(&mut self, format: &str, children: u32, dictionary: u32, length: usize, offset: usize) -> usize {
        self.schema.extend([self.formats.len() as u32, format.len() as u32, 2, children, dictionary]);
        self.formats.extend(format.bytes());
        self.lengths.extend([length as u64, offset as u64]);
        self.places.extend([0; 9]);
        self.nodes() - 1
    }

    pub fn nodes(&self) -> usize {
        self.lengths.len() / 2
    }

    // At a multiple of 64, as Arrow's buffers.
    pub fn lay(&mut self, s: &[u8]) -> [u64; 2] {
        self.body.resize(self.body.len().next_multiple_of(64), 0);
        let at = self.body.len();
        self.body.extend(s);
        [at as u64, s.len() as u64]
    }

    // The bytes of a place, its start and how many.
    pub fn part(&self, p: &[u64]) -> Option<&[u8]> {
        self.body.get(p[0] as usize..p[0].checked_add(p[1])? as usize)
    }

    pub fn buffer(&mut self, node: usize, number: usize, s: &[u8]) {
        let place = self.lay(s);
        self.places[9 * node + 1 + 2 * number..][..2].copy_from_slice(&place);
    }

    pub fn validity(&mut self, node: usize, s: &[u8]) {
        self.places[9 * node] = 1;
        self.buffer(node, 0, s);
    }

    pub fn data(&mut self, node: usize, s: &[u8]) {
        let place = self.lay(s);
        self.buffers.extend(place);
        self.places[9 * node + 8] += 1;
    }

    pub fn ground(&self) -> u8 {
        unsafe {
            lafkuno_column_ground(
                self.formats.as_ptr(), self.formats.len(), self.schema.as_ptr(), self.schema.len(), self.lengths.as_ptr(), self.lengths.len(),
                self.places.as_ptr(), self.places.len(), self.buffers.as_ptr(), self.buffers.len(), self.body.as_ptr(), self.body.len(),
                0, self.nodes() as u32,
            )
        }
    }

    pub fn open(&self, room: &mut [u64]) -> u8 {
        unsafe {
            lafkuno_open_column(
                self.formats.as_ptr(), self.formats.len(), self.schema.as_ptr(), self.schema.len(), self.lengths.as_ptr(), self.lengths.len(),
                self.places.as_ptr(), self.places.len(), self.buffers.as_ptr(), self.buffers.len(), self.body.as_ptr(), self.body.len(),
                0, self.nodes() as u32, room.as_mut_ptr(), room.len(),
            )
        }
    }

    pub fn row(&self, tree: &[u64], row: u64) -> (u8, u64) {
        let mut answer = [0; 12];
        let kind = unsafe {
            lafkuno_read_row(
                tree.as_ptr(), tree.len(), self.lengths.as_ptr(), self.lengths.len(), self.places.as_ptr(), self.places.len(),
                self.buffers.as_ptr(), self.buffers.len(), self.body.as_ptr(), self.body.len(), 0, row, answer.as_mut_ptr(), answer.len(),
            )
        };
        (kind, answer[0])
    }
}
