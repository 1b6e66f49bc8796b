//! Replacements for what the code uses of the kit: lists whose growth can fail, ledgers, and vectors of fixed room.
use std::mem::MaybeUninit;
use std::ops::{Deref, DerefMut};

#[derive(Clone, Copy, Debug, PartialEq, Eq)]
pub struct AllocError;
#[derive(Clone, Copy, Debug, PartialEq, Eq)]
pub struct Global;
pub trait Ledger {}
pub struct Brand;
impl Ledger for Brand {}
pub struct Blank;
impl Blank {
    pub fn new(_: u64) -> Blank { Blank }
}

pub struct Vec<T>(pub std::vec::Vec<T>);
impl<T> Vec<T> {
    pub fn new(_: Global) -> Vec<T> { Vec(std::vec::Vec::new()) }
    pub fn with_capacity(_: Global, n: usize) -> Result<Vec<T>, AllocError> { Ok(Vec(std::vec::Vec::with_capacity(n))) }
    #[inline(always)]
    pub fn push(&mut self, v: T) -> Result<(), AllocError> { self.0.push(v); Ok(()) }
    #[inline(always)]
    pub fn pop(&mut self) -> Option<T> { self.0.pop() }
    #[inline(always)]
    pub fn clear(&mut self) { self.0.clear() }
    pub fn truncate(&mut self, n: usize) { self.0.truncate(n) }
    pub fn remove(&mut self, at: usize) -> T { self.0.remove(at) }
    pub fn as_slice(&self) -> &[T] { &self.0 }
    pub fn reserve(&mut self, n: usize) -> Result<(), AllocError> { self.0.reserve(n); Ok(()) }
    #[inline(always)] pub fn push_reserved(&mut self, v: T) { self.0.push(v) }
}
impl<T: Clone> Vec<T> {
    pub fn filled(v: T, n: usize) -> Result<Vec<T>, AllocError> { Ok(Vec(vec![v; n])) }
    pub fn from_slice(_: Global, s: &[T]) -> Result<Vec<T>, AllocError> { Ok(Vec(s.to_vec())) }
    pub fn extend_from_slice(&mut self, s: &[T]) -> Result<(), AllocError> { self.0.extend_from_slice(s); Ok(()) }
}
impl<T> Deref for Vec<T> {
    type Target = [T];
    fn deref(&self) -> &[T] { &self.0 }
}
impl<T> DerefMut for Vec<T> {
    fn deref_mut(&mut self) -> &mut [T] { &mut self.0 }
}
impl<'a, T> IntoIterator for &'a Vec<T> {
    type Item = &'a T;
    type IntoIter = std::slice::Iter<'a, T>;
    fn into_iter(self) -> Self::IntoIter { self.0.iter() }
}
pub struct VecDeque<T>(pub std::collections::VecDeque<T>);
impl<T> VecDeque<T> {
    pub fn new(_: Global) -> Self { VecDeque(std::collections::VecDeque::new()) }
    #[inline(always)]
    pub fn push_back(&mut self, v: T) -> Result<(), AllocError> { self.0.push_back(v); Ok(()) }
    #[inline(always)]
    pub fn pop_front(&mut self) -> Option<T> { self.0.pop_front() }
    pub fn clear(&mut self) { self.0.clear() }
    pub fn is_empty(&self) -> bool { self.0.is_empty() }
    pub fn len(&self) -> usize { self.0.len() }
}
impl<T> std::ops::Index<usize> for VecDeque<T> {
    type Output = T;
    fn index(&self, i: usize) -> &T { &self.0[i] }
}
impl<T> From<Vec<T>> for VecDeque<T> {
    fn from(v: Vec<T>) -> Self { VecDeque(v.0.into()) }
}
impl<T> From<VecDeque<T>> for Vec<T> {
    fn from(v: VecDeque<T>) -> Self { Vec(v.0.into()) }
}

/// As the crate arrayvec: no drop of the items (all are plain here).
pub struct ArrayVec<T, const N: usize> {
    len: u32,
    items: [MaybeUninit<T>; N],
}
impl<T, const N: usize> ArrayVec<T, N> {
    #[inline(always)]
    pub fn new() -> Self { ArrayVec { len: 0, items: unsafe { MaybeUninit::uninit().assume_init() } } }
    #[inline(always)]
    pub fn push(&mut self, v: T) {
        if self.len as usize >= N { panic!() }
        self.items[self.len as usize] = MaybeUninit::new(v);
        self.len += 1;
    }
    #[inline(always)]
    pub fn clear(&mut self) { self.len = 0 }
    #[inline(always)]
    pub fn as_slice(&self) -> &[T] {
        unsafe { std::slice::from_raw_parts(self.items.as_ptr() as *const T, self.len as usize) }
    }
    #[inline(always)]
    pub fn as_mut_slice(&mut self) -> &mut [T] {
        unsafe { std::slice::from_raw_parts_mut(self.items.as_mut_ptr() as *mut T, self.len as usize) }
    }
    pub fn insert(&mut self, at: usize, v: T) {
        let n = self.len as usize;
        if n >= N || at > n { panic!() }
        unsafe {
            let p = self.items.as_mut_ptr() as *mut T;
            std::ptr::copy(p.add(at), p.add(at + 1), n - at);
            p.add(at).write(v);
        }
        self.len += 1;
    }
    pub fn remove(&mut self, at: usize) -> T {
        let n = self.len as usize;
        if at >= n { panic!() }
        self.len -= 1;
        unsafe {
            let p = self.items.as_mut_ptr() as *mut T;
            let v = p.add(at).read();
            std::ptr::copy(p.add(at + 1), p.add(at), n - at - 1);
            v
        }
    }
}
impl<T: Copy, const N: usize> ArrayVec<T, N> {
    pub fn try_extend_from_slice(&mut self, s: &[T]) -> Result<(), AllocError> {
        for v in s {
            if self.len as usize >= N { return Err(AllocError) }
            self.push(*v);
        }
        Ok(())
    }
}
impl<T, const N: usize> Deref for ArrayVec<T, N> {
    type Target = [T];
    #[inline(always)]
    fn deref(&self) -> &[T] { self.as_slice() }
}
impl<T, const N: usize> DerefMut for ArrayVec<T, N> {
    #[inline(always)]
    fn deref_mut(&mut self) -> &mut [T] { self.as_mut_slice() }
}
impl<T: std::fmt::Debug, const N: usize> std::fmt::Debug for ArrayVec<T, N> {
    fn fmt(&self, f: &mut std::fmt::Formatter<'_>) -> std::fmt::Result {
        self.as_slice().fmt(f)
    }
}

pub struct Box<T>(pub std::boxed::Box<T>);
impl<T> Box<T> {
    pub fn new(_: Global, v: T) -> Result<Box<T>, AllocError> { Ok(Box(std::boxed::Box::new(v))) }
}
impl<T> Deref for Box<T> {
    type Target = T;
    fn deref(&self) -> &T { &self.0 }
}
impl<T> DerefMut for Box<T> {
    fn deref_mut(&mut self) -> &mut T { &mut self.0 }
}

pub struct String(pub std::string::String);
impl String {
    pub fn as_str(&self) -> &str { &self.0 }
}
impl Deref for String {
    type Target = str;
    fn deref(&self) -> &str { &self.0 }
}
impl std::fmt::Display for String {
    fn fmt(&self, f: &mut std::fmt::Formatter<'_>) -> std::fmt::Result { f.write_str(&self.0) }
}
#[allow(unused_macros)]
macro_rules! format_in { ($($t:tt)*) => { Ok(crate::shim::String(std::format!($($t)*))) } }
pub(crate) use format_in;

/// As the crate itoa: the digits of a number.
pub struct Buffer(std::string::String);
impl Buffer {
    pub fn new() -> Buffer { Buffer(std::string::String::new()) }
    pub fn format(&mut self, n: u32) -> &str {
        self.0 = n.to_string();
        &self.0
    }
}

/// As the crate circular_buffer: a full one loses its first item.
pub struct HeapCircularBuffer<T> {
    room: usize,
    items: std::collections::VecDeque<T>,
}
impl<T> HeapCircularBuffer<T> {
    pub fn with_capacity(_: Global, room: usize) -> Result<Self, AllocError> {
        Ok(HeapCircularBuffer { room, items: std::collections::VecDeque::with_capacity(room) })
    }
    pub fn len(&self) -> usize { self.items.len() }
    pub fn capacity(&self) -> usize { self.room }
    pub fn back(&self) -> Option<&T> { self.items.back() }
    pub fn push_back(&mut self, v: T) -> Option<T> {
        if self.room == 0 { return Some(v) }
        let first = if self.items.len() == self.room { self.items.pop_front() } else { None };
        self.items.push_back(v);
        first
    }
    pub fn pop_back(&mut self) -> Option<T> { self.items.pop_back() }
}
