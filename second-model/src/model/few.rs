//! A few items in order: the objects of a read, and their values (document 02,
//! Req 02).

/// The most objects of one read.
pub const MOST: usize = 8;

/// Some items in order. Any number of them can be handed over; of more than
/// eight the first eight are kept, and how many they were.
#[derive(Clone, Copy, Debug, PartialEq, Eq)]
pub struct Few<T> {
    count: usize,
    items: [T; MOST],
}

impl<T: Copy + Default> Few<T> {
    /// These items.
    pub fn new(items: &[T]) -> Self {
        items.iter().copied().collect()
    }

    /// One item alone.
    pub fn one(item: T) -> Self {
        Few::new(&[item])
    }

    /// How many were handed over.
    pub fn count(&self) -> usize {
        self.count
    }

    /// Those that are kept: all, if they are eight or fewer.
    pub fn kept(&self) -> &[T] {
        &self.items[..self.count.min(MOST)]
    }

    /// Those that are kept, one after the other.
    pub fn each(&self) -> impl Iterator<Item = T> + '_ {
        self.kept().iter().copied()
    }
}

impl Few<u16> {
    /// "A read of 2 to 8 objects."
    pub fn is_context(&self) -> bool {
        (2..=MOST).contains(&self.count)
    }
}

impl<T: Copy + Default> FromIterator<T> for Few<T> {
    fn from_iter<I: IntoIterator<Item = T>>(items: I) -> Self {
        let mut few = Few {
            count: 0,
            items: [T::default(); MOST],
        };
        for item in items {
            if let Some(place) = few.items.get_mut(few.count) {
                *place = item;
            }
            few.count += 1;
        }
        few
    }
}

#[cfg(test)]
mod tests {
    use super::*;

    #[test]
    fn the_first_eight_are_kept_and_all_are_counted() {
        for count in 0..20u16 {
            let items: Vec<u16> = (100..100 + count).collect();
            let few = Few::new(&items);
            assert_eq!(few.count(), items.len());
            assert_eq!(few.kept(), &items[..items.len().min(8)]);
            assert_eq!(few.is_context(), (2..=8).contains(&count));
        }
    }
}
