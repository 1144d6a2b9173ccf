// Reads every type, method, signature and body of an assembly by Mono.Cecil, and prints how many there were.
using System;
using Mono.Cecil;

static class Reader {
    static long types, methods, parameters, instructions, text;

    static void Main (string [] args)
    {
        using (var module = ModuleDefinition.ReadModule (args [0], new ReaderParameters (ReadingMode.Deferred)))
            foreach (var type in module.GetTypes ())
                Read (type);
        Console.WriteLine ("types={0} methods={1} parameters={2} instructions={3} text={4}", types, methods, parameters, instructions, text);
    }

    static void Read (TypeDefinition type)
    {
        types++;
        text += type.FullName.Length + type.Interfaces.Count + type.NestedTypes.Count;
        foreach (var field in type.Fields)
            text += field.Name.Length;
        foreach (var method in type.Methods) {
            methods++;
            text += method.FullName.Length;
            parameters += method.Parameters.Count;
            if (method.HasBody)
                instructions += method.Body.Instructions.Count + method.Body.ExceptionHandlers.Count;
        }
    }
}
