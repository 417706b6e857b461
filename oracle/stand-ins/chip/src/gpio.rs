//! Stand-in for `gpio`: pins as types, their setup does nothing.

use core::marker::PhantomData;

pub struct OpenDrain;

pub struct Output<MODE> {
    _mode: PhantomData<MODE>,
}

pub enum AltFunction {
    AF6,
}

macro_rules! pins {
    ($($pin:ident)+) => {
        $(
            pub struct $pin<MODE> {
                _mode: PhantomData<MODE>,
            }

            impl<MODE> Default for $pin<MODE> {
                fn default() -> Self {
                    $pin { _mode: PhantomData }
                }
            }

            impl<MODE> $pin<MODE> {
                pub fn set_alt_mode(&self, _mode: AltFunction) {}

                pub fn into_open_drain_output(self) -> $pin<Output<OpenDrain>> {
                    $pin::default()
                }
            }
        )+
    };
}

pins!(PA9 PA10 PA11 PA12 PB6 PB7 PB8 PB9 PB10 PB11 PB13 PB14);
