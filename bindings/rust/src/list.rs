use core::array;
use core::fmt;
use core::iter::Take;
use core::ops::Deref;
use core::slice;

/// Up to `N` values in their order, in memory of its own: no allocator is needed. It is used as
/// the slice that it holds.
///
/// ```
/// use pondreszi::{Response, Sender, SenderSettings};
/// # let settings = SenderSettings {
/// #     k: 10, t1_initial: 50, transmission_limit: 3, timeout_type: 0,
/// #     spacecraft: 42, channel: 3, vs: 0, nnr: 0,
/// # };
/// let responses = Sender::new(settings)?.request_ad(b"early")?.responses;
/// assert_eq!(responses, [Response::RejectAd]);
/// assert_eq!(responses.first(), Some(&Response::RejectAd));
/// # Ok::<(), pondreszi::Refused>(())
/// ```
#[derive(Clone, Copy)]
pub struct List<T, const N: usize> {
    values: [T; N],
    count: usize,
}

impl<T: Copy, const N: usize> List<T, N> {
    /// The values, of which there are at most `N`. The filler stands behind them and is never told.
    pub(crate) fn of(values: impl Iterator<Item = T>, filler: T) -> List<T, N> {
        let mut list = List {
            values: [filler; N],
            count: 0,
        };
        for value in values {
            list.values[list.count] = value;
            list.count += 1;
        }
        list
    }
}

impl<T, const N: usize> Deref for List<T, N> {
    type Target = [T];

    fn deref(&self) -> &[T] {
        &self.values[..self.count]
    }
}

impl<T: fmt::Debug, const N: usize> fmt::Debug for List<T, N> {
    fn fmt(&self, f: &mut fmt::Formatter<'_>) -> fmt::Result {
        (**self).fmt(f)
    }
}

impl<T: PartialEq, const N: usize> PartialEq for List<T, N> {
    fn eq(&self, other: &List<T, N>) -> bool {
        **self == **other
    }
}

impl<T: Eq, const N: usize> Eq for List<T, N> {}

impl<T: PartialEq, const N: usize, const M: usize> PartialEq<[T; M]> for List<T, N> {
    fn eq(&self, other: &[T; M]) -> bool {
        **self == *other
    }
}

impl<T: PartialEq, const N: usize> PartialEq<[T]> for List<T, N> {
    fn eq(&self, other: &[T]) -> bool {
        **self == *other
    }
}

impl<T, const N: usize> IntoIterator for List<T, N> {
    type Item = T;
    type IntoIter = Take<array::IntoIter<T, N>>;

    fn into_iter(self) -> Self::IntoIter {
        self.values.into_iter().take(self.count)
    }
}

impl<'a, T, const N: usize> IntoIterator for &'a List<T, N> {
    type Item = &'a T;
    type IntoIter = slice::Iter<'a, T>;

    fn into_iter(self) -> Self::IntoIter {
        self.iter()
    }
}
