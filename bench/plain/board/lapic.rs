//! The interrupts of one processor: sets of four words, with cached greatest members.

#[derive(Clone, Copy, Default)]
pub struct VectorSet([u64; 4]);

impl VectorSet {
    /// Returns whether the vector was not a member.
    pub fn insert(&mut self, vector: u8) -> bool {
        let (word, bit) = (&mut self.0[vector as usize / 64], 1 << (vector % 64));
        let is_new = *word & bit == 0;
        *word |= bit;
        is_new
    }

    fn remove(&mut self, vector: u8) {
        self.0[vector as usize / 64] &= !(1 << (vector % 64));
    }

    pub fn contains(&self, vector: u8) -> bool {
        self.0[vector as usize / 64] >> (vector % 64) & 1 == 1
    }

    /// The greatest member, if no word above that of `vector` has one; 0 if there is none.
    fn greatest_below(&self, vector: u8) -> u8 {
        let mut place = vector as usize / 64;
        while self.0[place] == 0 {
            if place == 0 {
                return 0;
            }
            place -= 1;
        }
        (64 * place) as u8 + 63 - self.0[place].leading_zeros() as u8
    }
}

/// No vector is below 16, so 0 encodes none.
pub struct Lapic {
    requested: VectorSet,
    in_service: VectorSet,
    pub auto: VectorSet,
    /// The greatest requested vector above the priority: the next vector.
    next: u8,
    /// The greatest vector in service.
    serving: u8,
    /// The bound that a request must exceed to become the next vector: the next vector, or the
    /// greatest vector of the priority's class. While the processor is suspended, 255.
    barrier: u8,
    /// The barrier if nothing is in service and nothing is next.
    floor: u8,
}

impl Lapic {
    pub fn new() -> Lapic {
        Lapic {
            requested: VectorSet::default(),
            in_service: VectorSet::default(),
            auto: VectorSet::default(),
            next: 0,
            serving: 0,
            barrier: last_of_class(0),
            floor: last_of_class(0),
        }
    }

    pub fn next(&self) -> Option<u8> {
        (self.next != 0).then_some(self.next)
    }

    /// Returns whether the processor was not suspended.
    pub fn suspend(&mut self) -> bool {
        let is_new = self.floor != u8::MAX;
        self.next = 0;
        self.barrier = u8::MAX;
        self.floor = u8::MAX;
        is_new
    }

    /// Returns whether the processor was suspended.
    pub fn resume(&mut self) -> bool {
        let is_new = self.floor == u8::MAX;
        if is_new {
            self.floor = last_of_class(0);
            self.find_next(u8::MAX);
        }
        is_new
    }

    /// Returns whether the vector was not requested.
    #[inline(always)]
    pub fn request(&mut self, vector: u8) -> bool {
        let is_new = self.requested.insert(vector);
        if is_new && vector > self.barrier {
            self.next = vector;
            self.barrier = vector;
        }
        is_new
    }

    /// After a vector enters service there is no next one: the others are not above its class.
    #[inline(always)]
    pub fn take(&mut self) -> Option<u8> {
        let vector = self.next()?;
        self.requested.remove(vector);
        if self.auto.contains(vector) {
            self.find_next(vector);
        } else {
            self.in_service.insert(vector);
            self.serving = vector;
            self.next = 0;
            self.barrier = last_of_class(vector);
        }
        Some(vector)
    }

    /// A next vector stays the next one, since it is the greatest requested one.
    #[inline(always)]
    pub fn end(&mut self) {
        let ended = self.serving;
        if ended == 0 {
            return;
        }
        self.in_service.remove(ended);
        self.serving = self.in_service.greatest_below(ended);
        if self.next == 0 {
            self.find_next(ended);
        }
    }

    /// No word above that of `vector` has a request.
    #[inline(always)]
    fn find_next(&mut self, vector: u8) {
        let greatest = self.requested.greatest_below(vector);
        self.barrier = self.serving | self.floor;
        self.next = 0;
        if greatest > self.barrier {
            self.next = greatest;
            self.barrier = greatest;
        }
    }
}

fn last_of_class(vector: u8) -> u8 {
    vector | 15
}
