//! A walk over the objects that lie in a heap.
use crate::heap::Heap;
use crate::root::{Description, Shape};

/// The words of a page.
const PAGE_WORDS: u32 = 2048;

/// The objects that lie in a heap, each once: all that can be reached, and garbage that isn't freed yet.
pub struct Objects<'h> {
    heap: &'h Heap,
    pages: usize,
    page: usize,
    number: u32,
}

impl Heap {
    /// Returns a walk over the objects that lie in the heap. It looks at each block, so its time grows with the heap's
    /// size. If calls change the heap during the walk, it may miss an object, or show one twice.
    pub fn objects(&self) -> Objects<'_> {
        Objects { heap: self, pages: self.count().pages as usize, page: 0, number: 0 }
    }
}

impl Iterator for Objects<'_> {
    type Item = Description;

    fn next(&mut self) -> Option<Description> {
        while self.page < self.pages {
            let blocks = PAGE_WORDS.checked_div(self.heap.page(self.page).size).unwrap_or(0);
            while self.number < blocks {
                let block = self.heap.block(self.page, self.number);
                self.number += 1;
                if block.held == 1 && block.old == 0 && block.part == 0 {
                    return Some(Description { identity: block.identity, shape: Shape::of(&block.shape) });
                }
            }
            self.page += 1;
            self.number = 0;
        }
        None
    }
}
