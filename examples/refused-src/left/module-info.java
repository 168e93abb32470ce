/** One of two modules with a package words. */
module left {
    exports words;
}
