/** It reads left and right, which both export words to it. */
module app {
    requires left;
    requires right;
}
