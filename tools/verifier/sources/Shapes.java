package check;

import java.io.Serializable;
import java.util.ArrayList;
import java.util.Comparator;
import java.util.HashMap;
import java.util.Iterator;
import java.util.List;
import java.util.Map;

/** Classes, interfaces, inner classes and generics. */
public class Shapes {
    interface Shape extends Comparable<Shape> {
        double area();

        default boolean larger(Shape other) {
            return area() > other.area();
        }

        static Shape unit() {
            return new Square(1);
        }

        @Override
        default int compareTo(Shape other) {
            return Double.compare(area(), other.area());
        }
    }

    abstract static class Named implements Shape, Serializable, Cloneable {
        protected final String name;
        private transient int uses;

        protected Named(String name) {
            if (name == null) {
                throw new IllegalArgumentException("name");
            }
            this.name = name;
        }

        int use() {
            return uses++;
        }

        @Override
        protected Object clone() throws CloneNotSupportedException {
            Named copy = (Named) super.clone();
            copy.uses = 0;
            return copy;
        }

        @Override
        public String toString() {
            return name + "(" + area() + ", " + uses + ')';
        }
    }

    static final class Square extends Named {
        private final double side;

        Square(double side) {
            super("square");
            this.side = side;
        }

        Square(int side) {
            this((double) side);
        }

        @Override
        public double area() {
            return side * side;
        }
    }

    static class Circle extends Named {
        final float radius;

        Circle(float radius) {
            super(radius > 0 ? "circle" : "point");
            this.radius = radius;
        }

        @Override
        public double area() {
            return Math.PI * radius * radius;
        }

        class Arc {
            final long degrees;

            Arc(long degrees) {
                this.degrees = degrees % 360L;
            }

            double length() {
                return 2 * Math.PI * radius * degrees / 360;
            }
        }
    }

    enum Colour {
        RED {
            @Override
            Colour next() {
                return GREEN;
            }
        },
        GREEN,
        BLUE;

        Colour next() {
            Colour[] all = values();
            return all[(ordinal() + 1) % all.length];
        }
    }

    private final List<Shape> shapes = new ArrayList<>();
    private final Map<Colour, List<Shape>> byColour = new HashMap<>();

    <T extends Shape> T add(T shape, Colour colour) {
        shapes.add(shape);
        List<Shape> same = byColour.get(colour);
        if (same == null) {
            same = new ArrayList<>();
            byColour.put(colour, same);
        }
        same.add(shape);
        return shape;
    }

    double total() {
        double sum = 0;
        for (Shape shape : shapes) {
            sum += shape.area();
        }
        return sum;
    }

    Shape largest(Comparator<? super Shape> order) {
        Iterator<Shape> all = shapes.iterator();
        Shape best = null;
        while (all.hasNext()) {
            Shape next = all.next();
            if (best == null || order.compare(next, best) > 0) {
                best = next;
            }
        }
        return best;
    }

    Iterator<Shape> backwards() {
        return new Iterator<Shape>() {
            private int at = shapes.size();

            @Override
            public boolean hasNext() {
                return at > 0;
            }

            @Override
            public Shape next() {
                return shapes.get(--at);
            }

            @Override
            public void remove() {
                throw new UnsupportedOperationException();
            }
        };
    }

    static String of(Colour colour) {
        switch (colour) {
            case RED:
                return "r";
            case GREEN:
            case BLUE:
                return "gb";
            default:
                return "?";
        }
    }

    public static void main(String[] args) {
        Shapes all = new Shapes();
        Circle circle = all.add(new Circle(2f), Colour.BLUE);
        all.add(Shape.unit(), Colour.RED.next());
        Circle.Arc arc = circle.new Arc(args.length);
        System.out.println(all.total() + arc.length() + of(Colour.BLUE));
        System.out.println(all.largest(Comparator.naturalOrder()));
    }
}
