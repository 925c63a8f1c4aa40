"""What tools/debug and the page of tools/steps know of a run beside its steps: how many bytes places have, which
routine calls which, and what a condition means. The page has the conditions in `stepping/page/conditions.js` too, and
tests/page compares both."""
