//! Searches, sheets in both modes and at any limits, both with their reasons, function files, drawings, plans of repeaters, parts of jobs and lists of
//! nets under one roof, so that each command is written once.

use cases::examples::{
    drawing_cases, function_cases, limit_cases, list_cases, parts_cases, plan_cases, search_cases,
    sheet_cases, strict_cases, tree_why_cases, why_cases,
};
use cases::files::Case;
use cases::function::{Function, FunctionAnswer};
use cases::generate::{random_function, random_parts};
use cases::parts::{Parts, PartsAnswer};
use cases::stats::{
    Tally, count_drawing, count_function, count_list, count_parts, count_plan, count_search,
    count_sheet, count_strict, count_tree_why, count_why,
};
use cases::text::{
    drawing_answer_lines, drawing_lines, function_answer_lines, function_lines, list_answer_lines,
    list_lines, parts_answer_lines, parts_lines, plan_answer_lines, plan_lines,
    search_answer_lines, search_lines, sheet_lines, tree_answer_lines, tree_why_answer_lines,
    tree_why_lines, why_answer_lines, why_lines,
};
use oracle::{
    Disagreement, Drawing, DrawingAnswer, LimitSheet, List, ListAnswer, Plan, PlanAnswer, Profile,
    Rng, Search, SearchAnswer, Sheet, StrictSheet, TreeAnswer, TreeWhy, TreeWhyAnswer, Why,
    WhyAnswer, check_drawing, check_list, check_repeaters, check_search, check_sheet, check_strict,
    check_tree_why, check_why, random_drawing, random_limit_sheet, random_list, random_plan,
    random_search, random_sheet, random_strict, random_tree_why, random_why,
};

pub trait Asked: Case<Answer: Eq> {
    fn random(rng: &mut Rng, profile: Profile) -> Self;
    /// The samples of docs/RULES.md and the examples.
    fn examples() -> Vec<Self>;
    fn check(&self) -> Result<Self::Answer, Disagreement>;
    fn count(&self, answer: &Self::Answer, tally: &mut Tally);
    fn lines(&self) -> String;
    fn answer_lines(answer: &Self::Answer) -> String;
}

impl Asked for Search {
    fn random(rng: &mut Rng, profile: Profile) -> Self {
        random_search(rng, profile)
    }

    fn examples() -> Vec<Self> {
        search_cases()
    }

    fn check(&self) -> Result<SearchAnswer, Disagreement> {
        check_search(self)
    }

    fn count(&self, answer: &SearchAnswer, tally: &mut Tally) {
        count_search(tally, self, answer);
    }

    fn lines(&self) -> String {
        search_lines(self)
    }

    fn answer_lines(answer: &SearchAnswer) -> String {
        search_answer_lines(answer)
    }
}

impl Asked for Sheet {
    fn random(rng: &mut Rng, profile: Profile) -> Self {
        random_sheet(rng, profile)
    }

    fn examples() -> Vec<Self> {
        sheet_cases()
    }

    fn check(&self) -> Result<TreeAnswer, Disagreement> {
        check_sheet(self)
    }

    fn count(&self, answer: &TreeAnswer, tally: &mut Tally) {
        count_sheet(tally, self, answer);
    }

    fn lines(&self) -> String {
        sheet_lines(self)
    }

    fn answer_lines(answer: &TreeAnswer) -> String {
        tree_answer_lines(answer)
    }
}

impl Asked for LimitSheet {
    fn random(rng: &mut Rng, profile: Profile) -> Self {
        random_limit_sheet(rng, profile)
    }

    fn examples() -> Vec<Self> {
        limit_cases()
    }

    fn check(&self) -> Result<TreeAnswer, Disagreement> {
        check_sheet(&self.0)
    }

    fn count(&self, answer: &TreeAnswer, tally: &mut Tally) {
        count_sheet(tally, &self.0, answer);
    }

    fn lines(&self) -> String {
        sheet_lines(&self.0)
    }

    fn answer_lines(answer: &TreeAnswer) -> String {
        tree_answer_lines(answer)
    }
}

impl Asked for StrictSheet {
    fn random(rng: &mut Rng, profile: Profile) -> Self {
        random_strict(rng, profile)
    }

    fn examples() -> Vec<Self> {
        strict_cases()
    }

    fn check(&self) -> Result<TreeAnswer, Disagreement> {
        check_strict(self)
    }

    fn count(&self, answer: &TreeAnswer, tally: &mut Tally) {
        count_strict(tally, self, answer);
    }

    fn lines(&self) -> String {
        sheet_lines(&self.0)
    }

    fn answer_lines(answer: &TreeAnswer) -> String {
        tree_answer_lines(answer)
    }
}

impl Asked for Why {
    fn random(rng: &mut Rng, profile: Profile) -> Self {
        random_why(rng, profile)
    }

    fn examples() -> Vec<Self> {
        why_cases()
    }

    fn check(&self) -> Result<WhyAnswer, Disagreement> {
        check_why(self)
    }

    fn count(&self, answer: &WhyAnswer, tally: &mut Tally) {
        count_why(tally, self, answer);
    }

    fn lines(&self) -> String {
        why_lines(self)
    }

    fn answer_lines(answer: &WhyAnswer) -> String {
        why_answer_lines(answer)
    }
}

impl Asked for TreeWhy {
    fn random(rng: &mut Rng, profile: Profile) -> Self {
        random_tree_why(rng, profile)
    }

    fn examples() -> Vec<Self> {
        tree_why_cases()
    }

    fn check(&self) -> Result<TreeWhyAnswer, Disagreement> {
        check_tree_why(self)
    }

    fn count(&self, answer: &TreeWhyAnswer, tally: &mut Tally) {
        count_tree_why(tally, self, answer);
    }

    fn lines(&self) -> String {
        tree_why_lines(self)
    }

    fn answer_lines(answer: &TreeWhyAnswer) -> String {
        tree_why_answer_lines(answer)
    }
}

impl Asked for Function {
    fn random(rng: &mut Rng, profile: Profile) -> Self {
        random_function(rng, profile)
    }

    fn examples() -> Vec<Self> {
        function_cases()
    }

    /// The published Rust reads no text: there is the plain writer and reader alone.
    fn check(&self) -> Result<FunctionAnswer, Disagreement> {
        Ok(self.plain_answer())
    }

    fn count(&self, answer: &FunctionAnswer, tally: &mut Tally) {
        count_function(tally, self, answer);
    }

    fn lines(&self) -> String {
        function_lines(self)
    }

    fn answer_lines(answer: &FunctionAnswer) -> String {
        function_answer_lines(answer)
    }
}

impl Asked for Drawing {
    fn random(rng: &mut Rng, profile: Profile) -> Self {
        random_drawing(rng, profile)
    }

    fn examples() -> Vec<Self> {
        drawing_cases()
    }

    fn check(&self) -> Result<DrawingAnswer, Disagreement> {
        check_drawing(self)
    }

    fn count(&self, answer: &DrawingAnswer, tally: &mut Tally) {
        count_drawing(tally, self, answer);
    }

    fn lines(&self) -> String {
        drawing_lines(self)
    }

    fn answer_lines(answer: &DrawingAnswer) -> String {
        drawing_answer_lines(answer)
    }
}

impl Asked for Parts {
    fn random(rng: &mut Rng, profile: Profile) -> Self {
        random_parts(rng, profile)
    }

    fn examples() -> Vec<Self> {
        parts_cases()
    }

    /// The published Rust writes no sheet: there is the plain writer alone.
    fn check(&self) -> Result<PartsAnswer, Disagreement> {
        Ok(self.plain_answer())
    }

    fn count(&self, answer: &PartsAnswer, tally: &mut Tally) {
        count_parts(tally, self, answer);
    }

    fn lines(&self) -> String {
        parts_lines(self)
    }

    fn answer_lines(answer: &PartsAnswer) -> String {
        parts_answer_lines(answer)
    }
}

impl Asked for Plan {
    fn random(rng: &mut Rng, profile: Profile) -> Self {
        random_plan(rng, profile)
    }

    fn examples() -> Vec<Self> {
        plan_cases()
    }

    fn check(&self) -> Result<PlanAnswer, Disagreement> {
        check_repeaters(self)
    }

    fn count(&self, answer: &PlanAnswer, tally: &mut Tally) {
        count_plan(tally, self, answer);
    }

    fn lines(&self) -> String {
        plan_lines(self)
    }

    fn answer_lines(answer: &PlanAnswer) -> String {
        plan_answer_lines(answer)
    }
}

impl Asked for List {
    fn random(rng: &mut Rng, profile: Profile) -> Self {
        random_list(rng, profile)
    }

    fn examples() -> Vec<Self> {
        list_cases()
    }

    fn check(&self) -> Result<ListAnswer, Disagreement> {
        check_list(self)
    }

    fn count(&self, answer: &ListAnswer, tally: &mut Tally) {
        count_list(tally, self, answer);
    }

    fn lines(&self) -> String {
        list_lines(self)
    }

    fn answer_lines(answer: &ListAnswer) -> String {
        list_answer_lines(answer)
    }
}
