// What the program of `cfgx_vectors` calls besides.

impl<A: Allocator> String<A> {
    /// Returns an empty text.
    pub fn new(_alloc: A) -> Self {
        let (text, alloc) = (std::string::String::new(), PhantomData);
        String { text, alloc }
    }

    /// Appends a text.
    pub fn push_str(&mut self, text: &str) -> Result<(), AllocError> {
        let reserved = self.text.try_reserve(text.len());
        reserved.map_err(|_| AllocError)?;
        self.text.push_str(text);
        Ok(())
    }

    /// Appends a character.
    pub fn push(&mut self, character: char) -> Result<(), AllocError> {
        self.push_str(character.encode_utf8(&mut [0; 4]))
    }

    /// Appends what is formatted. `write!` calls this.
    pub fn write_fmt(&mut self, text: fmt::Arguments<'_>) -> Result<(), AllocError> {
        self.push_str(&text.to_string())
    }

    /// Returns the bytes.
    pub fn into_bytes(self) -> super::prelude::Vec<u8, A> {
        self.text.into_bytes().into()
    }
}

impl<A: Allocator> std::ops::Deref for String<A> {
    type Target = str;

    fn deref(&self) -> &str {
        &self.text
    }
}

impl<A: Allocator> fmt::Display for String<A> {
    fn fmt(&self, f: &mut fmt::Formatter<'_>) -> fmt::Result {
        self.text.fmt(f)
    }
}
