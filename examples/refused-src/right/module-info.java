/** The other module with a package words. */
module right {
    exports words;
}
