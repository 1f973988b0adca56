package sheetreader;

import java.nio.file.Files;
import java.nio.file.Paths;

/**
 * usage: java .. sheetreader.Stack INPUT STACK
 *
 * <p>Reads an input (docs/MANUAL.md, "The program") on a thread that has STACK bytes of stack, and prints the line. Where that is too little
 * the virtual machine ends.
 */
final class Stack {
    public static void main(String[] args) throws Exception {
        Test.Input in = new Test.Input(Files.readAllBytes(Paths.get(args[0])));
        Thread thread = new Thread(null, () -> System.out.println(Test.line(in.readHere())), "stack", Long.parseLong(args[1]));
        thread.start();
        thread.join();
    }
}
