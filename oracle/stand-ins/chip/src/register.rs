//! The register interface in the manner of svd2rust: registers of fields,
//! each field a place and a width, over the scripted block.

use core::marker::PhantomData;

/// What is read from a field of type `T`.
pub struct FieldReader<T> {
    bits: u32,
    _type: PhantomData<T>,
}

impl<T> FieldReader<T> {
    #[inline]
    pub(crate) fn of(word: u32, place: u32, width: u32) -> Self {
        FieldReader {
            bits: word >> place & mask(width),
            _type: PhantomData,
        }
    }
}

impl FieldReader<bool> {
    #[inline]
    pub fn bit_is_set(&self) -> bool {
        self.bits == 1
    }
}

impl FieldReader<u8> {
    #[inline]
    pub fn bits(&self) -> u8 {
        self.bits as u8
    }
}

/// A register's word while it is being put together.
pub trait Word {
    fn word(&mut self) -> &mut u32;
}

/// Writes a value of type `T` into a field; the field keeps its low bits.
pub struct FieldWriter<'a, W, T> {
    word: &'a mut W,
    place: u32,
    width: u32,
    _type: PhantomData<T>,
}

impl<'a, W: Word, T: Into<u32>> FieldWriter<'a, W, T> {
    #[inline]
    pub(crate) fn of(word: &'a mut W, place: u32, width: u32) -> Self {
        FieldWriter {
            word,
            place,
            width,
            _type: PhantomData,
        }
    }

    #[inline]
    pub fn bits(self, value: T) -> &'a mut W {
        let mask = mask(self.width);
        let word = self.word.word();
        *word = *word & !(mask << self.place) | (value.into() & mask) << self.place;
        self.word
    }
}

impl<'a, W: Word> FieldWriter<'a, W, bool> {
    #[inline]
    pub fn bit(self, value: bool) -> &'a mut W {
        self.bits(value)
    }

    #[inline]
    pub fn set_bit(self) -> &'a mut W {
        self.bits(true)
    }

    #[inline]
    pub fn clear_bit(self) -> &'a mut W {
        self.bits(false)
    }
}

#[inline]
fn mask(width: u32) -> u32 {
    (1 << width) - 1
}

/// `name @ offset = start { field place width type, … }` for each register:
/// its reader `R`, its writer `W`, and the block that holds all registers.
/// A `write` starts from `start`.
macro_rules! registers {
    ($($name:ident @ $offset:literal = $start:literal {
        $($field:ident $place:literal $width:literal $type:ty),* $(,)?
    })+) => {
        $(
            pub mod $name {
                #[allow(unused_imports)] // TIMINGR is written as a whole
                use crate::register::{FieldReader, FieldWriter, Word};
                use crate::tape;

                pub struct R(#[allow(dead_code)] u32);

                impl R {
                    $(
                        #[inline]
                        pub fn $field(&self) -> FieldReader<$type> {
                            FieldReader::of(self.0, $place, $width)
                        }
                    )*
                }

                pub struct W(u32);

                impl Word for W {
                    #[inline]
                    fn word(&mut self) -> &mut u32 {
                        &mut self.0
                    }
                }

                impl W {
                    #[inline]
                    pub fn bits(&mut self, word: u32) -> &mut Self {
                        self.0 = word;
                        self
                    }

                    $(
                        #[inline]
                        pub fn $field(&mut self) -> FieldWriter<'_, W, $type> {
                            FieldWriter::of(self, $place, $width)
                        }
                    )*
                }

                pub struct Register;

                impl Register {
                    #[inline]
                    pub fn read(&self) -> R {
                        R(tape::read($offset))
                    }

                    #[inline]
                    pub fn write(&self, form: impl FnOnce(&mut W) -> &mut W) {
                        let mut word = W($start);
                        form(&mut word);
                        tape::write($offset, word.0);
                    }

                    #[inline]
                    pub fn modify<F>(&self, form: F)
                    where
                        for<'w> F: FnOnce(&R, &'w mut W) -> &'w mut W,
                    {
                        let read = self.read();
                        let mut word = W(read.0);
                        form(&read, &mut word);
                        tape::write($offset, word.0);
                    }
                }
            }
        )+

        pub struct RegisterBlock {
            $(pub $name: $name::Register,)+
        }

        const BLOCK: RegisterBlock = RegisterBlock {
            $($name: $name::Register,)+
        };
    };
}

pub(crate) use registers;
