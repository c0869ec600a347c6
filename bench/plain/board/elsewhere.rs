//! The overlays of a sparse board, by the pages at which they are mapped: a table of lists. A list has
//! the overlays of all pages that share a place in the table, in the order in which they obscure each
//! other, so the first that is mapped at a page is the visible one.

const NOTHING: u8 = 255;

const NOWHERE: u64 = u64::MAX;

#[derive(Clone, Copy)]
struct Node {
    page: u64,
    next: u8,
}

pub struct Mapped {
    /// The first overlay of each list.
    heads: Box<[u8]>,
    nodes: Box<[Node]>,
}

impl Mapped {
    pub fn new(overlays: usize) -> Mapped {
        let node = Node {
            page: NOWHERE,
            next: NOTHING,
        };
        Mapped {
            heads: vec![NOTHING; (2 * overlays).next_power_of_two()].into(),
            nodes: vec![node; overlays].into(),
        }
    }

    fn place_of(&self, page: u64) -> usize {
        page as usize & (self.heads.len() - 1)
    }

    /// The first overlay that is mapped at a page.
    #[inline(always)]
    pub fn first(&self, page: u64) -> Option<u8> {
        let mut overlay = self.heads[self.place_of(page)];
        while let Some(node) = self.nodes.get(overlay as usize) {
            if node.page == page {
                return Some(overlay);
            }
            overlay = node.next;
        }
        None
    }

    /// Maps an overlay at a page, or nowhere.
    pub fn set(&mut self, overlay: u8, page: Option<u64>) {
        let after = page.unwrap_or(NOWHERE);
        let before = std::mem::replace(&mut self.nodes[overlay as usize].page, after);
        if before == after {
            return;
        }
        if before != NOWHERE {
            let next = self.nodes[overlay as usize].next;
            *self.link_to(before, overlay) = next;
        }
        if after != NOWHERE {
            let link = self.link_to(after, overlay);
            let next = std::mem::replace(link, overlay);
            self.nodes[overlay as usize].next = next;
        }
    }

    /// The link in the list of a page to the overlay, or to the first after it.
    fn link_to(&mut self, page: u64, overlay: u8) -> &mut u8 {
        let place = self.place_of(page);
        if self.heads[place] >= overlay {
            return &mut self.heads[place];
        }
        let mut before = self.heads[place] as usize;
        while self.nodes[before].next < overlay {
            before = self.nodes[before].next as usize;
        }
        &mut self.nodes[before].next
    }
}
