// The module for Gradle: the jar that bindings/java/build makes with javac, jar and cc alone. Run bindings/java/build first: from its
// folder out/java/native this takes the native library.
plugins {
    `java-library`
}

group = "org.simbegyor"
version = "1.1.0-SNAPSHOT"

java {
    withSourcesJar()
    withJavadocJar()
}

repositories {
    mavenCentral()
}

dependencies {
    compileOnly("org.jspecify:jspecify:1.0.0")
}

tasks.withType<JavaCompile> {
    options.release.set(11)
    options.encoding = "UTF-8"
    options.compilerArgs.addAll(listOf("-Xlint:all", "-Werror", "-XDstringConcat=inline"))
}

tasks.processResources {
    from("../../out/java/native")
    from("../../LICENSE-MIT", "../../LICENSE-APACHE") {
        into("META-INF/licenses")
    }
}

tasks.jar {
    archiveBaseName.set("simbegyor-ndef")
}

layout.buildDirectory.set(file("../../out/java/gradle"))
