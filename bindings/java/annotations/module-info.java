/**
 * The two annotations of JSpecify 1.0 that the classes bear, so that javac alone compiles them. No class of this module is in
 * the jar: Kotlin and other tools know the annotations by their names. Maven and Gradle take those of org.jspecify instead.
 */
module org.jspecify {
    exports org.jspecify.annotations;
}
