//! pliron's irbuild/, as far as it is compared with: its text, and stand-ins for the trait by which
//! leaves are hashed and for what inserts clones.

/// Whole lines of pliron's cloning.rs, cut out by build.rs.
#[allow(dead_code, unused_imports, clippy::all)]
pub mod cloning {
    use alloc::vec::Vec;

    use super::{
        inserter::{BlockInsertionPoint, OpInsertionPoint},
        rewriter::{Rewriter, ScopedRewriter},
    };
    use crate::{
        attribute::AttributeDict,
        basic_block::BasicBlock,
        context::{Context, Ptr},
        linked_list::ContainsLinkedList,
        location::Location,
        operation::Operation,
        region::Region,
        r#type::{TypeHandle, Typed},
        utils::table::HMap,
        value::Value,
    };

    /// In pliron an error with its place; to clone within one context never fails.
    type Result<T> = core::result::Result<T, core::convert::Infallible>;

    include!(concat!(env!("OUT_DIR"), "/ir_mapping.rs"));
    include!(concat!(env!("OUT_DIR"), "/cloning.rs"));
}

/// Stands in for pliron's irbuild/inserter.rs: the places that cloning.rs names.
pub mod inserter {
    use crate::{basic_block::BasicBlock, context::Ptr, region::Region};

    #[derive(Clone, Copy, Default)]
    pub enum OpInsertionPoint {
        #[default]
        Unset,
        AtBlockEnd(Ptr<BasicBlock>),
    }

    pub enum BlockInsertionPoint {
        AtRegionEnd(Ptr<Region>),
    }
}

/// Stands in for pliron's irbuild/rewriter.rs, without listeners.
pub mod rewriter {
    use super::inserter::{BlockInsertionPoint, OpInsertionPoint};
    use crate::{
        basic_block::BasicBlock,
        context::{Context, Ptr},
        identifier::Identifier,
        operation::Operation,
        r#type::TypeHandle,
    };

    /// In pliron the two that insert are of a trait below it.
    pub trait Rewriter {
        fn get_insertion_point(&self) -> OpInsertionPoint;
        fn set_insertion_point(&mut self, point: OpInsertionPoint);

        fn append_operation(&mut self, ctx: &Context, op: Ptr<Operation>) {
            if let OpInsertionPoint::AtBlockEnd(block) = self.get_insertion_point() {
                op.insert_at_back(block, ctx);
            }
        }

        fn create_block(
            &mut self,
            ctx: &mut Context,
            at: BlockInsertionPoint,
            label: Option<Identifier>,
            arg_types: Vec<TypeHandle>,
        ) -> Ptr<BasicBlock> {
            let BlockInsertionPoint::AtRegionEnd(region) = at;
            let block = BasicBlock::new(ctx, label, arg_types);
            block.insert_at_back(region, ctx);
            self.set_insertion_point(OpInsertionPoint::AtBlockEnd(block));
            block
        }
    }

    #[derive(Default)]
    pub struct IRRewriter(OpInsertionPoint);

    impl Rewriter for IRRewriter {
        fn get_insertion_point(&self) -> OpInsertionPoint {
            self.0
        }

        fn set_insertion_point(&mut self, point: OpInsertionPoint) {
            self.0 = point;
        }
    }

    /// Gives the rewriter its point back when it is dropped.
    pub struct ScopedRewriter<'a> {
        rewriter: &'a mut dyn Rewriter,
        before: OpInsertionPoint,
    }

    impl<'a> ScopedRewriter<'a> {
        pub fn new(rewriter: &'a mut dyn Rewriter, point: OpInsertionPoint) -> Self {
            let before = rewriter.get_insertion_point();
            rewriter.set_insertion_point(point);
            ScopedRewriter { rewriter, before }
        }
    }

    impl Drop for ScopedRewriter<'_> {
        fn drop(&mut self) {
            self.rewriter.set_insertion_point(self.before);
        }
    }

    impl Rewriter for ScopedRewriter<'_> {
        fn get_insertion_point(&self) -> OpInsertionPoint {
            self.rewriter.get_insertion_point()
        }

        fn set_insertion_point(&mut self, point: OpInsertionPoint) {
            self.rewriter.set_insertion_point(point);
        }
    }
}

/// Stands in for pliron's irbuild/decontext.rs.
pub mod decontext {
    use crate::{context::Context, utils::table::FxHasher};

    /// In pliron a hash that is stable from context to context; here every leaf is a number.
    pub trait StableHash {
        fn stable_hash(&self, ctx: &Context, state: &mut FxHasher);
    }
}

// pliron's text: left to its own lints and form.
#[allow(dead_code, unused_imports, clippy::all)]
#[path = "../pliron/src/irbuild/equivalence.rs"]
#[rustfmt::skip]
pub mod equivalence;
