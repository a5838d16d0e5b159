pub use aho_corasick;
