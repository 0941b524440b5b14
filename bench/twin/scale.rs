// Scales: what prices are, how they join and which is no dearer.
pub trait Scale {
    type Price: Copy + Default;

    fn weigh(weight: u16) -> Self::Price;
    fn join(a: Self::Price, b: Self::Price) -> Self::Price;
    fn no_dearer(a: Self::Price, b: Self::Price) -> bool;
}

pub struct Points;

impl Scale for Points {
    type Price = u32;

    fn weigh(weight: u16) -> u32 {
        weight.into()
    }

    fn join(a: u32, b: u32) -> u32 {
        a.saturating_add(b)
    }

    fn no_dearer(a: u32, b: u32) -> bool {
        a <= b
    }
}

pub struct Worst;

impl Scale for Worst {
    type Price = u16;

    fn weigh(weight: u16) -> u16 {
        weight
    }

    fn join(a: u16, b: u16) -> u16 {
        a.max(b)
    }

    fn no_dearer(a: u16, b: u16) -> bool {
        a <= b
    }
}
