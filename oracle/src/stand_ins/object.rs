//! Stand-in for `crate::object`: document 01's objects, as a list read and updated by number.
//!
//! Everything in this file is decided by us and not by the Rust: activation's order of refusals, the limit, the retired state,
//! retirement at count 0. Agreement on it is no evidence. What the Rust decides is when it asks, and in which order.

use core::cell::RefCell;
use core::marker::PhantomData;

use crate::authority::Rights;
use crate::state::{Object, ACTIVE, NEW, RETIRED};

thread_local! {
    static OBJECTS: RefCell<Vec<Object>> = const { RefCell::new(Vec::new()) };
    static WANTED_KIND: RefCell<u32> = const { RefCell::new(0) };
}

pub(crate) fn set_objects(objects: Vec<Object>) {
    OBJECTS.with(|list| *list.borrow_mut() = objects);
}
pub(crate) fn objects() -> Vec<Object> {
    OBJECTS.with(|list| list.borrow().clone())
}
pub(crate) fn object_count() -> usize {
    OBJECTS.with(|list| list.borrow().len())
}
pub(crate) fn with_object<R>(number: usize, act: impl FnOnce(&mut Object) -> R) -> R {
    OBJECTS.with(|list| act(&mut list.borrow_mut()[number]))
}
/// The kind that `AnyObject::KIND` stands for in the next `resolve`.
pub(crate) fn want_kind(kind: u32) {
    WANTED_KIND.with(|wanted| *wanted.borrow_mut() = kind);
}

#[derive(Clone, Copy, Debug, Eq, PartialEq)]
pub(crate) struct Koid(pub(crate) u64);

/// A kind number. `resolve` compares with a constant of a type; `Wanted` is that constant, standing for the request's kind.
#[derive(Clone, Copy, Debug, Eq)]
pub(crate) enum ObjectKind {
    Number(u32),
    Wanted,
}
impl ObjectKind {
    pub(crate) const PROCESS: Self = Self::Number(1);
    pub(crate) fn number(self) -> u32 {
        match self {
            Self::Number(number) => number,
            Self::Wanted => WANTED_KIND.with(|wanted| *wanted.borrow()),
        }
    }
}
impl PartialEq for ObjectKind {
    fn eq(&self, other: &Self) -> bool {
        self.number() == other.number()
    }
}

#[derive(Clone, Copy, Debug, Eq, PartialEq)]
pub(crate) enum TransferClass {
    Never,
    Leaf,
    RendezvousOnly,
}

#[derive(Clone, Copy, Debug, Eq, PartialEq)]
pub(crate) enum ActiveHandleError {
    NotExportable,
    Retired,
    AlreadyActive,
    CountExhausted,
}

pub(crate) trait KernelObject {
    const KIND: ObjectKind;
}
pub(crate) trait UserExportableObject: KernelObject {}

/// The one object type: its kind is the request's.
pub(crate) struct AnyObject;
impl KernelObject for AnyObject {
    const KIND: ObjectKind = ObjectKind::Wanted;
}
impl UserExportableObject for AnyObject {}

pub(crate) struct ObjectPublication<T: UserExportableObject> {
    number: usize,
    kind: PhantomData<T>,
}
impl<T: UserExportableObject> ObjectPublication<T> {
    pub(crate) fn of(number: usize) -> Self {
        Self { number, kind: PhantomData }
    }
    pub(crate) fn supported_rights(&self) -> Rights {
        with_object(self.number, |object| known_rights(object.supported))
    }
    pub(crate) fn activate(self) -> Result<ActiveHandleOwner, ActiveHandleError> {
        with_object(self.number, |object| {
            if !object.exportable {
                Err(ActiveHandleError::NotExportable)
            } else if object.state == RETIRED {
                Err(ActiveHandleError::Retired)
            } else if object.state == ACTIVE {
                Err(ActiveHandleError::AlreadyActive)
            } else if object.count == object.limit {
                Err(ActiveHandleError::CountExhausted)
            } else {
                object.state = ACTIVE;
                object.count = 1;
                Ok(())
            }
        })?;
        Ok(ActiveHandleOwner { number: self.number })
    }
}

pub(crate) fn known_rights(bits: u64) -> Rights {
    match Rights::from_bits(bits) {
        Some(rights) => rights,
        None => crate::violation::invariant_violation(),
    }
}

/// One counted handle of an object.
pub(crate) struct ActiveHandleOwner {
    number: usize,
}
impl ActiveHandleOwner {
    /// An owner whose count stands already in the object's record: for loading a state.
    pub(crate) fn counted_already(number: usize) -> Self {
        Self { number }
    }
    pub(crate) fn number(&self) -> usize {
        self.number
    }
    pub(crate) fn koid(&self) -> Koid {
        with_object(self.number, |object| Koid(object.koid))
    }
    pub(crate) fn kind(&self) -> ObjectKind {
        with_object(self.number, |object| ObjectKind::Number(object.kind))
    }
    pub(crate) fn transfer_class(&self) -> TransferClass {
        with_object(self.number, |object| match object.class {
            0 => TransferClass::Leaf,
            1 => TransferClass::RendezvousOnly,
            _ => TransferClass::Never,
        })
    }
    pub(crate) fn pin<T: KernelObject>(&self) -> Option<KernelRef<T, OperationPin>> {
        Some(KernelRef { number: self.number, marks: PhantomData })
    }
    pub(crate) fn pin_erased(&self) -> ErasedKernelRef<OperationPin> {
        ErasedKernelRef { number: self.number, mark: PhantomData }
    }
    pub(crate) fn pin_diagnostic(&self) -> ErasedKernelRef<Diagnostic> {
        ErasedKernelRef { number: self.number, mark: PhantomData }
    }
    pub(crate) fn pin_waitable(&self) -> Option<ErasedKernelRef<OperationPin>> {
        None
    }
    pub(crate) fn try_duplicate(&self) -> Result<Self, ActiveHandleError> {
        with_object(self.number, |object| {
            if object.state == RETIRED {
                Err(ActiveHandleError::Retired)
            } else if object.count == object.limit {
                Err(ActiveHandleError::CountExhausted)
            } else {
                object.count += 1;
                Ok(())
            }
        })?;
        Ok(Self { number: self.number })
    }
    pub(crate) fn release_into(self, _retirement: &mut ObjectRetirement) {
        with_object(self.number, |object| {
            if object.count == 0 {
                crate::violation::invariant_violation();
            }
            object.count -= 1;
            if object.count == 0 {
                object.state = RETIRED;
            }
        });
    }
}

pub(crate) struct ObjectRetirement;
impl ObjectRetirement {
    pub(crate) const fn new() -> Self {
        Self
    }
    pub(crate) fn drain(self) {}
}

pub(crate) enum OperationPin {}
pub(crate) enum Diagnostic {}
pub(crate) struct SignalSource<'a>(PhantomData<&'a ()>);

pub(crate) struct KernelRef<T, C> {
    number: usize,
    marks: PhantomData<(T, C)>,
}
impl<T, C> KernelRef<T, C> {
    pub(crate) fn number(&self) -> usize {
        self.number
    }
    pub(crate) fn object(&self) -> &T {
        crate::violation::invariant_violation()
    }
    pub(crate) fn koid(&self) -> Koid {
        with_object(self.number, |object| Koid(object.koid))
    }
}

pub(crate) struct ErasedKernelRef<C> {
    number: usize,
    mark: PhantomData<C>,
}
impl<C> Clone for ErasedKernelRef<C> {
    fn clone(&self) -> Self {
        Self { number: self.number, mark: PhantomData }
    }
}
impl<C> ErasedKernelRef<C> {
    pub(crate) fn koid(&self) -> Koid {
        with_object(self.number, |object| Koid(object.koid))
    }
    pub(crate) fn kind(&self) -> ObjectKind {
        with_object(self.number, |object| ObjectKind::Number(object.kind))
    }
    pub(crate) fn pin<T: KernelObject>(&self) -> Option<KernelRef<T, OperationPin>> {
        Some(KernelRef { number: self.number, marks: PhantomData })
    }
    pub(crate) fn signal_source(&self) -> Option<SignalSource<'_>> {
        None
    }
}
