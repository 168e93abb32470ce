/** A library whose readers read core too. */
module lib {
    requires transitive core;
}
