//! Stands for miette: the sources and spans that errors carry for printing. Nothing is printed here.
pub use derives::Diagnostic;

#[derive(Debug, Clone)]
pub struct NamedSource<S> {
    pub name: String,
    pub source: S,
}

impl<S> NamedSource<S> {
    pub fn new(name: impl AsRef<str>, source: S) -> Self {
        Self { name: name.as_ref().to_string(), source }
    }

    pub fn name(&self) -> &str {
        &self.name
    }
}

#[derive(Debug, Clone, Copy)]
pub struct SourceOffset(pub usize);

impl From<usize> for SourceOffset {
    fn from(offset: usize) -> Self {
        Self(offset)
    }
}

#[derive(Debug, Clone, Copy)]
pub struct SourceSpan {
    pub offset: SourceOffset,
    pub length: usize,
}

impl SourceSpan {
    pub fn new(offset: SourceOffset, length: usize) -> Self {
        Self { offset, length }
    }
}

#[derive(Debug, Clone)]
pub struct LabeledSpan {
    offset: usize,
    length: usize,
}

impl LabeledSpan {
    pub fn offset(&self) -> usize {
        self.offset
    }

    #[allow(clippy::len_without_is_empty)]
    pub fn len(&self) -> usize {
        self.length
    }
}
