/** The program: it reads lib, and through it core. It uses tools where they are there. */
module app {
    requires lib;
    requires static tools;
}
