//! Lent memory with a margin on both sides that no call may touch.
const MARGIN: usize = 8;

#[derive(Clone)]
pub struct Guarded<T> {
    all: Vec<T>,
    mark: T,
}

impl<T: Copy + PartialEq> Guarded<T> {
    pub fn new(words: &[T], mark: T) -> Guarded<T> {
        let margin = [mark; MARGIN];
        Guarded { all: [&margin[..], words, &margin[..]].concat(), mark }
    }

    pub fn words(&self) -> &[T] {
        &self.all[MARGIN..self.all.len() - MARGIN]
    }

    pub fn words_mut(&mut self) -> &mut [T] {
        let end = self.all.len() - MARGIN;
        &mut self.all[MARGIN..end]
    }

    pub fn is_whole(&self) -> bool {
        let end = self.all.len() - MARGIN;
        self.all[..MARGIN].iter().chain(&self.all[end..]).all(|word| *word == self.mark)
    }
}
