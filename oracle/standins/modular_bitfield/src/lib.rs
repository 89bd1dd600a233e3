//! Stand-in for the crate modular_bitfield, for its one use here:
//! `IndexingCodePtr`, a tag of one bit and an offset of 63. `bitfield` drops
//! the struct it is put on (after looking that it is that one) and gives the
//! same accessors over two plain fields; `Specifier` gives nothing.
use proc_macro::TokenStream;

#[proc_macro_derive(Specifier, attributes(bits))]
pub fn specifier(_item: TokenStream) -> TokenStream {
    TokenStream::new()
}

#[proc_macro_attribute]
pub fn bitfield(_attr: TokenStream, item: TokenStream) -> TokenStream {
    let text: String = item.to_string().split_whitespace().collect::<Vec<_>>().join("");
    let fields = "structIndexingCodePtr{pubtag:IndexingCodePtrTag,puboffset:B63,}";
    assert!(text.ends_with(fields), "another struct: {text}");

    r#"
    #[derive(Debug, Clone, Copy)]
    pub struct IndexingCodePtr {
        tag: IndexingCodePtrTag,
        offset: u64,
    }

    impl IndexingCodePtr {
        pub fn new() -> Self {
            IndexingCodePtr { tag: IndexingCodePtrTag::External, offset: 0 }
        }

        pub fn tag(&self) -> IndexingCodePtrTag {
            self.tag
        }

        pub fn with_tag(self, tag: IndexingCodePtrTag) -> Self {
            IndexingCodePtr { tag, ..self }
        }

        pub fn offset(&self) -> u64 {
            self.offset
        }

        pub fn set_offset(&mut self, offset: u64) {
            assert!(offset < 1 << 63);
            self.offset = offset;
        }

        pub fn with_offset(mut self, offset: u64) -> Self {
            self.set_offset(offset);
            self
        }
    }
    "#
    .parse()
    .unwrap()
}
