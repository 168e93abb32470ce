/** Tools that no module needs. */
module tools {
    requires core;
}
