/** What all share. */
module core {
}
