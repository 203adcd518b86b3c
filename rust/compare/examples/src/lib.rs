//! The doc comments of workclock's seven files, with `hirgwamo` for `workclock`,
//! as ../../test.sh takes them from the files into the folder that EXAMPLES names.
//! rustdoc runs the examples in them.

#[cfg(doctest)]
mod examples {
    #[doc = include_str!(concat!(env!("EXAMPLES"), "/engine.md"))]
    mod engine {}
    #[doc = include_str!(concat!(env!("EXAMPLES"), "/error.md"))]
    mod error {}
    #[doc = include_str!(concat!(env!("EXAMPLES"), "/holiday.md"))]
    mod holiday {}
    #[doc = include_str!(concat!(env!("EXAMPLES"), "/rule.md"))]
    mod rule {}
    #[doc = include_str!(concat!(env!("EXAMPLES"), "/schedule.md"))]
    mod schedule {}
    #[doc = include_str!(concat!(env!("EXAMPLES"), "/weekdays.md"))]
    mod weekdays {}
    #[doc = include_str!(concat!(env!("EXAMPLES"), "/workday.md"))]
    mod workday {}
}
