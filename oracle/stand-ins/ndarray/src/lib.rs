//! Stand-in for the crate ndarray: what the text and the wrappers call, and no more. Arrays of N sides, row by row.

use num_traits::{One, Zero};

pub struct Axis(pub usize);

#[derive(Clone, Debug)]
pub struct Array<T, const N: usize> {
    data: Vec<T>,
    sides: [usize; N],
}

pub type Array2<T> = Array<T, 2>;
pub type Array3<T> = Array<T, 3>;
pub type Array4<T> = Array<T, 4>;

#[derive(Clone, Debug)]
pub struct ArrayView<'a, T, const N: usize> {
    data: &'a [T],
    sides: [usize; N],
}

pub type ArrayView3<'a, T> = ArrayView<'a, T, 3>;

/// Nothing is said of it but that the length did not fit the sides.
#[derive(Debug)]
pub struct ShapeError;

fn place<const N: usize>(sides: &[usize; N], index: [usize; N]) -> Option<usize> {
    let mut at = 0;
    for k in 0..N {
        if index[k] >= sides[k] {
            return None;
        }
        at = at * sides[k] + index[k];
    }
    Some(at)
}

impl<T, const N: usize> Array<T, N> {
    pub fn from_elem(shape: impl Into<[usize; N]>, value: T) -> Self
    where
        T: Clone,
    {
        let sides = shape.into();
        Self { data: vec![value; sides.iter().product()], sides }
    }

    pub fn from_shape_vec(shape: impl Into<[usize; N]>, data: Vec<T>) -> Result<Self, ShapeError> {
        let sides = shape.into();
        if data.len() != sides.iter().product() {
            return Err(ShapeError);
        }
        Ok(Self { data, sides })
    }

    pub fn ones(shape: impl Into<[usize; N]>) -> Self
    where
        T: Clone + One,
    {
        Self::from_elem(shape, T::one())
    }

    pub fn zeros(shape: impl Into<[usize; N]>) -> Self
    where
        T: Clone + Zero,
    {
        Self::from_elem(shape, T::zero())
    }

    pub fn shape(&self) -> &[usize] {
        &self.sides
    }

    pub fn get(&self, index: impl Into<[usize; N]>) -> Option<&T> {
        place(&self.sides, index.into()).map(|at| &self.data[at])
    }

    pub fn get_mut(&mut self, index: impl Into<[usize; N]>) -> Option<&mut T> {
        place(&self.sides, index.into()).map(|at| &mut self.data[at])
    }

    /// Row by row.
    pub fn iter(&self) -> std::slice::Iter<'_, T> {
        self.data.iter()
    }
}

impl<T> Array<T, 2> {
    pub fn dim(&self) -> (usize, usize) {
        self.sides.into()
    }

    pub fn nrows(&self) -> usize {
        self.sides[0]
    }

    pub fn ncols(&self) -> usize {
        self.sides[1]
    }
}

impl<T> Array<T, 3> {
    pub fn dim(&self) -> (usize, usize, usize) {
        self.sides.into()
    }
}

impl<T> Array<T, 4> {
    /// Along the first axis only: the text asks for no other.
    pub fn index_axis(&self, axis: Axis, index: usize) -> ArrayView3<'_, T> {
        assert!(axis.0 == 0 && index < self.sides[0]);
        let [_, a, b, c] = self.sides;
        let size = a * b * c;
        ArrayView { data: &self.data[index * size..][..size], sides: [a, b, c] }
    }
}

impl<T, const N: usize> ArrayView<'_, T, N> {
    pub fn shape(&self) -> &[usize] {
        &self.sides
    }

    pub fn get(&self, index: impl Into<[usize; N]>) -> Option<&T> {
        place(&self.sides, index.into()).map(|at| &self.data[at])
    }
}
