//! How a frame of the copying machine keeps its values: in a `Vec`, or in im-rc's persistent vector.

pub trait Values: Default {
    fn of(initial: &[u32]) -> Self;
    fn get(&self, place: usize) -> u32;
    fn set(&mut self, place: usize, value: u32);
    /// Becomes a copy of the parent's values.
    fn copy_from(&mut self, parent: &Self);
    /// The frame has ended.
    fn drop_values(&mut self);
}

impl Values for Vec<u32> {
    fn of(initial: &[u32]) -> Self {
        initial.to_vec()
    }

    fn get(&self, place: usize) -> u32 {
        self[place]
    }

    fn set(&mut self, place: usize, value: u32) {
        self[place] = value;
    }

    fn copy_from(&mut self, parent: &Self) {
        self.clone_from(parent);
    }

    /// The buffer stays with the frame's place and serves its next frame.
    fn drop_values(&mut self) {
        self.clear();
    }
}

#[cfg(feature = "im")]
impl Values for im_rc::Vector<u32> {
    fn of(initial: &[u32]) -> Self {
        initial.iter().copied().collect()
    }

    fn get(&self, place: usize) -> u32 {
        self[place]
    }

    fn set(&mut self, place: usize, value: u32) {
        self[place] = value;
    }

    fn copy_from(&mut self, parent: &Self) {
        *self = parent.clone();
    }

    fn drop_values(&mut self) {
        *self = im_rc::Vector::new();
    }
}
