// What is drawn part after part, so that the page answers between them.

/**
 * Draws parts into an element, in the place of what stood there: the first one at once, and each other in a task of its
 * own, once those above it are laid out. What is drawn anew, or no more on the page, draws no more of what it was. All
 * that is still to come is drawn by the element's `fill`, which is called before the page is printed, and goes with the
 * last part.
 * @param {HTMLElement & { fill?: () => void }} to @param {(() => any)[]} parts each makes its nodes
 */
export function drawInTurn(to, parts) {
  const left = [...parts];
  const fill = to.fill = () => {
    to.append(...left.splice(0).flatMap(make => make()));
    delete to.fill;
  };
  const next = () => {
    if (to.fill !== fill || !to.isConnected) return;
    if (left.length) to.append(...[left.shift()()].flat());
    if (!left.length) delete to.fill;
    else if (to.getBoundingClientRect()) setTimeout(next); // (the question where it stands has it laid out)
  };
  to.replaceChildren();
  next();
}

/**
 * Calls what is to come once the page is painted as it stands; where nobody looks at it, soon.
 * @param {() => void} then
 */
export function oncePainted(then) {
  if (document.hidden) setTimeout(then);
  else requestAnimationFrame(() => setTimeout(then));
}
